/* Runs its input, a program in JavaScript, which can `print`. */
#include "mujs.h"
#include "input.h"

static void print(js_State *state)
{
    for (int i = 1; i < js_gettop(state); i++)
        printf(i > 1 ? " %s" : "%s", js_tostring(state, i));
    putchar('\n');
    js_pushundefined(state);
}

int main(void)
{
    js_State *state = js_newstate(NULL, NULL, JS_STRICT);
    js_newcfunction(state, print, "print", 0);
    js_setglobal(state, "print");
    read_input();
    int failed = js_dostring(state, input);
    js_freestate(state);
    return failed;
}
