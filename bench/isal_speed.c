/* The side that code_speed is compared with: ISA-L's ec_encode_data on 29 data and 3 parity sectors of
 * 1,024 bytes, once as encoding, and once as finding 3 lost data sectors from 29 others. ISA-L's field and
 * code are others than those of QIC-80; the shape of the work is the same. */
#include <isa-l.h>

#include <stdio.h>
#include <stdlib.h>
#include <string.h>
#include <time.h>

enum { SECTOR = 1024, DATA = 29, PARITY = 3, WHOLE = DATA + PARITY };

static unsigned char segment[WHOLE][SECTOR], found[PARITY][SECTOR];
static unsigned char matrix[WHOLE * DATA], rest[DATA * DATA], inverse[DATA * DATA];
static unsigned char rows[PARITY * DATA], tables[PARITY * DATA * 32];
static const int lost[PARITY] = {3, 14, 25};

static long now(void)
{
    struct timespec at;
    clock_gettime(CLOCK_MONOTONIC, &at);
    return at.tv_sec * 1000000000L + at.tv_nsec;
}

static long encode(long times)
{
    unsigned char *from[DATA], *to[PARITY];
    for (int i = 0; i < DATA; i++)
        from[i] = segment[i];
    for (int i = 0; i < PARITY; i++)
        to[i] = segment[DATA + i];
    long start = now();
    ec_init_tables(DATA, PARITY, matrix + DATA * DATA, tables);
    for (long i = 0; i < times; i++) {
        segment[i % DATA][i % SECTOR] ^= segment[DATA + 2][0];
        ec_encode_data(SECTOR, DATA, PARITY, tables, from, to);
    }
    return now() - start;
}

static int is_lost(int place)
{
    return place == lost[0] || place == lost[1] || place == lost[2];
}

static long solve(long times)
{
    unsigned char *from[DATA], *to[PARITY];
    int kept = 0;
    for (int i = 0; i < WHOLE; i++)
        if (!is_lost(i)) {
            memcpy(rest + kept * DATA, matrix + i * DATA, DATA);
            from[kept++] = segment[i];
        }
    for (int i = 0; i < PARITY; i++)
        to[i] = found[i];
    long start = now();
    if (gf_invert_matrix(rest, inverse, DATA) != 0)
        exit(1);
    for (int i = 0; i < PARITY; i++)
        memcpy(rows + i * DATA, inverse + lost[i] * DATA, DATA);
    ec_init_tables(DATA, PARITY, rows, tables);
    for (long i = 0; i < times; i++) {
        for (int k = 0; k < PARITY; k++)
            memset(found[k], (int)(i % 251), SECTOR);
        ec_encode_data(SECTOR, DATA, PARITY, tables, from, to);
    }
    return now() - start;
}

int main(int count, char **words)
{
    long times = count > 1 ? atol(words[1]) : 1;
    memset(segment, 0x5A, DATA * SECTOR);
    gf_gen_cauchy1_matrix(matrix, WHOLE, DATA);
    long encoding = encode(times), solving = solve(times);
    for (int i = 0; i < PARITY; i++)
        if (memcmp(found[i], segment[lost[i]], SECTOR) != 0)
            return 1;
    fprintf(stderr, "encoding %ld ns\nsolving %ld ns\n", encoding, solving);
    return 0;
}
