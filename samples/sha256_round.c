/* The choose and majority functions of a round of SHA-256 (FIPS 180-4, section 4.1.2), and their sum. */
unsigned round_functions(unsigned a, unsigned b, unsigned c, unsigned e, unsigned f, unsigned g)
{
    unsigned choose = g ^ (e & (f ^ g));
    unsigned majority = (a & b) | (c & (a | b));
    return choose + majority;
}
