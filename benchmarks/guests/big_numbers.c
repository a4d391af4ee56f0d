/* Products of large numbers of words: digit by digit, and by Karatsuba's three products of halves, which have to agree;
   and each product divided by a word, with a remainder that has to be the product of the factors' remainders. */
#include "../guest.h"

enum { LENGTH = 128, SHORT = 16, PRODUCTS = 150 };

typedef unsigned long long product;

static word left[LENGTH], right[LENGTH], plain[2 * LENGTH], halved[2 * LENGTH];

static void multiply_plainly(word *to, const word *a, const word *b, int count)
{
    for (int i = 0; i < 2 * count; i++)
        to[i] = 0;
    for (int i = 0; i < count; i++) {
        word carry = 0;
        for (int k = 0; k < count; k++) {
            product sum = (product)a[i] * b[k] + to[i + k] + carry;
            to[i + k] = (word)sum;
            carry = (word)(sum >> 32);
        }
        to[i + count] = carry;
    }
}

/* Adds a number to a longer one; a carry goes on into the words behind it. */
static void add(word *to, const word *a, int count)
{
    word carry = 0;
    for (int i = 0; i < count; i++) {
        product sum = (product)to[i] + a[i] + carry;
        to[i] = (word)sum;
        carry = (word)(sum >> 32);
    }
    for (to += count; carry; to++)
        carry = ++*to == 0;
}

static void subtract(word *to, const word *a, int count)
{
    word borrow = 0;
    for (int i = 0; i < count; i++) {
        product rest = (product)to[i] - a[i] - borrow;
        to[i] = (word)rest;
        borrow = (word)(rest >> 32) & 1;
    }
    for (to += count; borrow; to++)
        borrow = (*to)-- == 0;
}

/* The difference of two numbers without its sign; whether the first is less. */
static int apart(word *to, const word *a, const word *b, int count)
{
    int place = count - 1;
    while (place > 0 && a[place] == b[place])
        place--;
    int is_less = a[place] < b[place];
    for (int i = 0; i < count; i++)
        to[i] = is_less ? b[i] : a[i];
    subtract(to, is_less ? a : b, count);
    return is_less;
}

static void multiply_by_halves(word *to, const word *a, const word *b, int count)
{
    if (count <= SHORT) {
        multiply_plainly(to, a, b, count);
        return;
    }
    int half = count / 2;
    word differences[LENGTH], middle[LENGTH + 1], outer[2 * LENGTH];
    int is_negative = apart(differences, a, a + half, half) ^ apart(differences + half, b, b + half, half);
    multiply_by_halves(middle, differences, differences + half, half);
    multiply_by_halves(to, a, b, half);
    multiply_by_halves(to + count, a + half, b + half, half);
    for (int i = 0; i < 2 * count; i++)
        outer[i] = to[i];
    add(to + half, outer, count);
    add(to + half, outer + count, count);
    if (is_negative)
        add(to + half, middle, count);
    else
        subtract(to + half, middle, count);
}

/* The remainder of a number by one of 16 bits, by long division of half words. */
static word remainder_by(const word *a, int count, word by)
{
    word rest = 0;
    while (count-- > 0) {
        rest = (rest << 16 | a[count] >> 16) % by;
        rest = (rest << 16 | (a[count] & 65535)) % by;
    }
    return rest;
}

void run(void)
{
    word sum = 0;
    for (int time = 0; time < PRODUCTS; time++) {
        for (int i = 0; i < LENGTH; i++)
            left[i] = next(), right[i] = next();
        multiply_plainly(plain, left, right, LENGTH);
        multiply_by_halves(halved, left, right, LENGTH);
        word by = next() % 65535 + 1;
        word due = remainder_by(left, LENGTH, by) * remainder_by(right, LENGTH, by) % by;
        if (remainder_by(plain, 2 * LENGTH, by) != due)
            leave(1);
        for (int i = 0; i < 2 * LENGTH; i++) {
            if (plain[i] != halved[i])
                leave(2);
            sum = sum * 31 + plain[i];
        }
    }
    finish(sum);
}
