/* Packs a text, by copies of what stands before (Ziv and Lempel 1977) and a code of Huffman's for letters and lengths
   of copies, and unpacks it bit by bit. The same text has to come back. */
#include "../guest.h"

enum {
    TEXT = 32768, TIMES = 6, LETTERS = 256, SHORTEST = 4, LONGEST = 67, SYMBOLS = LETTERS + LONGEST - SHORTEST + 1,
    BACK_BITS = 12, BACK = 1 << BACK_BITS, CHAINS = 4096, TRIES = 16, DEEPEST = 32
};

static byte text[TEXT], back[TEXT], packed[2 * TEXT];
static int newest[CHAINS], older[TEXT], symbols[TEXT], distances[TEXT], many;
static word uses[2 * SYMBOLS], codes[SYMBOLS];
static int above[2 * SYMBOLS], depths[SYMBOLS], of_depth[DEEPEST], sorted[SYMBOLS];
static word bits;

/* Phrases that are drawn from some that were drawn before, and new letters. */
static void write_text(void)
{
    for (int place = 0; place < TEXT;) {
        int length = 3 + (int)(next() % 14), from = place > 512 ? (int)(next() % (word)place) : 0;
        int is_new = place <= 512 || next() % 4 == 0;
        for (; length > 0 && place < TEXT; length--, place++, from++)
            text[place] = is_new ? (byte)("etaoinshrdlucmfw ,.\n"[next() % 20]) : text[from];
    }
}

static int chain_of(int place)
{
    word letters = text[place] | text[place + 1] << 8 | text[place + 2] << 16 | (word)text[place + 3] << 24;
    return (int)(letters * 0x9e3779b1u >> 20);
}

static void enlist(int place)
{
    if (place > TEXT - SHORTEST)
        return;
    older[place] = newest[chain_of(place)];
    newest[chain_of(place)] = place;
}

static int same_length(int from, int place)
{
    int most = TEXT - place < LONGEST ? TEXT - place : LONGEST, length = 0;
    while (length < most && text[from + length] == text[place + length])
        length++;
    return length;
}

/* The symbol of the longest copy that goes on at a place, or of its letter. */
static int symbol_at(int place, int *distance)
{
    int best = SHORTEST - 1, tries = TRIES;
    if (place > TEXT - SHORTEST)
        return text[place];
    for (int from = newest[chain_of(place)]; from >= 0 && place - from < BACK && tries-- > 0; from = older[from]) {
        int length = same_length(from, place);
        if (length > best)
            best = length, *distance = place - from;
    }
    return best < SHORTEST ? text[place] : LETTERS + best - SHORTEST;
}

static int length_of(int symbol)
{
    return symbol < LETTERS ? 1 : symbol - LETTERS + SHORTEST;
}

static void find_copies(void)
{
    for (int i = 0; i < CHAINS; i++)
        newest[i] = -1;
    many = 0;
    for (int place = 0; place < TEXT; many++) {
        symbols[many] = symbol_at(place, &distances[many]);
        for (int end = place + length_of(symbols[many]); place < end; place++)
            enlist(place);
    }
}

/* The least used tree that has none above it yet. */
static int least(int trees)
{
    int found = -1;
    for (int i = 0; i < trees; i++)
        if (uses[i] && !above[i] && (found < 0 || uses[i] < uses[found]))
            found = i;
    return found;
}

static void find_depths(void)
{
    int trees = SYMBOLS;
    for (int i = 0; i < 2 * SYMBOLS; i++)
        uses[i] = 0, above[i] = 0;
    for (int i = 0; i < many; i++)
        uses[symbols[i]]++;
    for (;; trees++) {
        int first = least(trees);
        above[first] = trees;
        int second = least(trees);
        if (second < 0) {
            above[first] = 0;
            break;
        }
        above[second] = trees;
        uses[trees] = uses[first] + uses[second];
    }
    for (int i = 0; i < SYMBOLS; i++) {
        depths[i] = 0;
        for (int tree = i; uses[i] && above[tree]; tree = above[tree])
            depths[i]++;
        if (depths[i] >= DEEPEST)
            leave(1);
    }
}

/* Codes of one depth follow one another, behind those that are shorter. */
static void find_codes(void)
{
    word code = 0;
    int place = 0;
    for (int depth = 1; depth < DEEPEST; depth++, code <<= 1) {
        of_depth[depth] = 0;
        for (int i = 0; i < SYMBOLS; i++)
            if (depths[i] == depth) {
                codes[i] = code++;
                of_depth[depth]++;
                sorted[place++] = i;
            }
    }
}

static void put_bits(word value, int count)
{
    while (count-- > 0) {
        if (bits % 8 == 0)
            packed[bits / 8] = 0;
        packed[bits / 8] |= (byte)((value >> count & 1) << bits % 8);
        bits++;
    }
}

static word take_bit(void)
{
    word bit = packed[bits / 8] >> bits % 8 & 1;
    bits++;
    return bit;
}

static void pack(void)
{
    bits = 0;
    for (int i = 0; i < many; i++) {
        put_bits(codes[symbols[i]], depths[symbols[i]]);
        if (symbols[i] >= LETTERS)
            put_bits((word)distances[i], BACK_BITS);
    }
}

static int take_symbol(void)
{
    int code = 0, first = 0, place = 0;
    for (int depth = 1; depth < DEEPEST; depth++) {
        code |= (int)take_bit();
        if (code - first < of_depth[depth])
            return sorted[place + code - first];
        place += of_depth[depth];
        first = (first + of_depth[depth]) << 1;
        code <<= 1;
    }
    leave(2);
}

static void unpack(void)
{
    bits = 0;
    for (int place = 0; place < TEXT;) {
        int symbol = take_symbol(), distance = 0;
        if (symbol < LETTERS) {
            back[place++] = (byte)symbol;
            continue;
        }
        for (int i = 0; i < BACK_BITS; i++)
            distance = distance << 1 | (int)take_bit();
        for (int end = place + length_of(symbol); place < end; place++)
            back[place] = back[place - distance];
    }
}

void run(void)
{
    word sum = 0;
    for (int time = 0; time < TIMES; time++) {
        write_text();
        find_copies();
        find_depths();
        find_codes();
        pack();
        sum = sum * 31 + bits;
        unpack();
        for (int i = 0; i < TEXT; i++) {
            if (text[i] != back[i])
                leave(3);
            sum = sum * 31 + text[i];
        }
        for (word i = 0; i < bits / 8; i++)
            sum = sum * 31 + packed[i];
    }
    finish(sum);
}
