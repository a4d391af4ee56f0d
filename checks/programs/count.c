/* Reads all its input, and counts lines, words, bytes and letters. */
#include <ctype.h>
#include <stdio.h>

int main(void)
{
    static unsigned letters[26];
    unsigned lines = 0, words = 0, bytes = 0, longest = 0, length = 0;
    int inside = 0, byte;
    while ((byte = getchar()) != EOF) {
        bytes++;
        lines += byte == '\n';
        words += !isspace(byte) && !inside;
        inside = !isspace(byte);
        length = byte == '\n' ? 0 : length + 1;
        if (length > longest)
            longest = length;
        if (isalpha(byte))
            letters[tolower(byte) - 'a']++;
    }
    printf("%u lines, %u words, %u bytes, longest line %u\n", lines, words, bytes, longest);
    for (int i = 0; i < 26; i++)
        printf("%c %u\n", 'a' + i, letters[i]);
    return getchar() == EOF ? (int)(words & 127) : 200;
}
