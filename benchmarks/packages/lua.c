/* Runs its input, a program in Lua. */
#include "lauxlib.h"
#include "lualib.h"
#include "input.h"

int main(void)
{
    lua_State *state = luaL_newstate();
    luaL_requiref(state, "_G", luaopen_base, 1);
    luaL_requiref(state, LUA_STRLIBNAME, luaopen_string, 1);
    luaL_requiref(state, LUA_TABLIBNAME, luaopen_table, 1);
    luaL_requiref(state, LUA_MATHLIBNAME, luaopen_math, 1);
    int failed = luaL_loadbuffer(state, input, read_input(), "input") || lua_pcall(state, 0, 0, 0);
    if (failed)
        printf("%s\n", luaL_tolstring(state, -1, NULL));
    lua_close(state);
    return failed;
}
