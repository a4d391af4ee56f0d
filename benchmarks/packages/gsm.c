/* Takes its input for sound of 13 bits, codes and decodes it frame by frame, and prints the frames and a sum of all. */
#include "gsm.h"
#include "input.h"

enum { FRAME = 160 };

int main(void)
{
    gsm coder = gsm_create(), decoder = gsm_create();
    unsigned count = read_input() / FRAME, sum = 0;
    for (unsigned frame = 0; frame < count; frame++) {
        gsm_signal sound[FRAME], back[FRAME];
        gsm_frame bytes;
        for (int i = 0; i < FRAME; i++)
            sound[i] = (input[frame * FRAME + i] - 64) * 256;
        gsm_encode(coder, sound, bytes);
        gsm_decode(decoder, bytes, back);
        for (unsigned i = 0; i < sizeof bytes; i++)
            sum = sum * 31 + bytes[i];
        for (int i = 0; i < FRAME; i++)
            sum = sum * 31 + (unsigned short)back[i];
    }
    printf("%u frames, sum %08x\n", count, sum);
}
