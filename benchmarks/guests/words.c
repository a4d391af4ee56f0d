/* Counts the words of a text: in a table by a hash of their letters (FNV-1a), which places a word that finds its place
   taken behind it, and in a tree whose branches are letters. Both have to count the same. */
#include "../guest.h"

enum { TEXT = 65536, SLOTS = 8192, NODES = 65536, TIMES = 12, LETTERS = 26 };

struct entry {
    const byte *name;
    int length;
    word count;
};

struct node {
    byte letter;
    word count;
    struct node *less, *more, *below;
};

static byte text[TEXT + 1];
static struct entry table[SLOTS];
static struct node nodes[NODES];
static int taken;

static int is_letter(byte letter)
{
    return (letter | 32) >= 'a' && (letter | 32) <= 'z';
}

/* Words of two to nine letters, of which the first ones of the alphabet are the most frequent. */
static void write_text(void)
{
    int place = 0;
    while (place < TEXT - 12) {
        int length = 2 + (int)(next() % 4 + next() % 5);
        for (int i = 0; i < length; i++) {
            word draw = next();
            word letter = (draw & 15) * (draw >> 4 & 15) * LETTERS / (length > 5 ? 225 : 1125);
            text[place++] = (byte)((draw >> 8 & 31 ? 'a' : 'A') + letter % LETTERS);
        }
        text[place++] = next() % 8 ? ' ' : '\n';
    }
    text[place] = 0;
}

static int are_equal(const byte *a, const byte *b, int length)
{
    while (length > 0 && (*a | 32) == (*b | 32))
        a++, b++, length--;
    return length == 0;
}

static struct entry *entry_of(const byte *name, int length)
{
    word hash = 0x811c9dc5;
    for (int i = 0; i < length; i++)
        hash = (hash ^ (name[i] | 32)) * 0x01000193;
    struct entry *entry = &table[hash % SLOTS];
    while (entry->name && !(entry->length == length && are_equal(entry->name, name, length)))
        entry = entry + 1 == table + SLOTS ? table : entry + 1;
    return entry;
}

static struct node *node_of(const byte *name, int length)
{
    struct node **at = &nodes[0].below, *node = 0;
    for (int i = 0; i < length; i++) {
        byte letter = name[i] | 32;
        while ((node = *at) != 0 && node->letter != letter)
            at = letter < node->letter ? &node->less : &node->more;
        if (!node) {
            node = &nodes[++taken];
            node->letter = letter;
            *at = node;
        }
        at = &node->below;
    }
    return node;
}

static word count_words(void)
{
    word words = 0;
    for (const byte *at = text; *at;) {
        const byte *from = at;
        while (is_letter(*at))
            at++;
        int length = (int)(at - from);
        if (length > 0) {
            struct entry *entry = entry_of(from, length);
            entry->name = from;
            entry->length = length;
            entry->count++;
            node_of(from, length)->count++;
            words++;
        } else {
            at++;
        }
    }
    return words;
}

static word sum_of_counts(word sum)
{
    for (int i = 0; i < SLOTS; i++)
        if (table[i].name) {
            if (node_of(table[i].name, table[i].length)->count != table[i].count)
                leave(1);
            sum = sum * 31 + table[i].count;
        }
    return sum;
}

static void clear(void)
{
    for (int i = 0; i < SLOTS; i++)
        table[i].name = 0, table[i].count = 0;
    for (; taken >= 0; taken--)
        nodes[taken].count = 0, nodes[taken].less = nodes[taken].more = nodes[taken].below = 0;
    taken = 0;
}

void run(void)
{
    word sum = 0;
    for (int time = 0; time < TIMES; time++) {
        clear();
        write_text();
        sum = sum * 31 + count_words();
        sum = sum_of_counts(sum);
    }
    finish(sum);
}
