// Simulates a ring store's stash: how many rows each epoch's end leaves behind its refill (docs/ORAM). All N
// keys are put first, BW an epoch. Then each place of each batch asks for another key, and each write puts
// another one: nothing brings more rows into the stash. The random words are those of the program's first run
// on a new store (docs/FORMATS): words of ChaCha20's stream 2 under the tape key, which is zeros where no key
// file is given.
//
//   stash N L Z S R BR BW E EPOCHS                prints these, then the most rows that an epoch left, which
//                                                 of the EPOCHS left more than 1,024 first (- for none, 0 for
//                                                 one of puts), and how many slots each filled, and how many
//                                                 cells it read, on the average
//   stash N L Z S R BR BW E EPOCHS KEYS rows      prints the rows that each epoch left, those of puts too
//   stash N L Z S R BR BW E EPOCHS KEYS script    prints a script that asks the program for just these keys
//                                                 (`run --turns`), by BR clients: N at least R * BR + BW
//
// Status 1 where a word is wrong. bench/stash.sh compiles it.
#include <stdint.h>
#include <stdio.h>
#include <stdlib.h>
#include <string.h>

enum { IN_STASH = -1, ABSENT = -2 };

static int keys, levels, real, dummies, batches, places, writes, paths, epochs;

// ---- the tape: word i of a generation is the words 2 i and 2 i + 1 of its stream, the low one first

static uint32_t tape_key[8];

static uint32_t turned(uint32_t x, int by) { return x << by | x >> (32 - by); }

static void quarter(uint32_t *a, uint32_t *b, uint32_t *c, uint32_t *d) {
    *a += *b, *d = turned(*d ^ *a, 16);
    *c += *d, *b = turned(*b ^ *c, 12);
    *a += *b, *d = turned(*d ^ *a, 8);
    *c += *d, *b = turned(*b ^ *c, 7);
}

// The low half of a word of generation 2, which has the bits of a leaf.
static uint32_t word(uint64_t place) {
    static uint64_t block = UINT64_MAX;
    static uint32_t out[16];
    if (block != place / 8) {
        block = place / 8;
        uint32_t in[16] = {0x61707865, 0x3320646e, 0x79622d32, 0x6b206574};
        memcpy(in + 4, tape_key, sizeof tape_key);
        in[12] = block, in[13] = block >> 32, in[14] = 2;
        memcpy(out, in, sizeof out);
        for (int round = 0; round < 20; round++)
            for (int i = 0; i < 4; i++) {
                int turn = round & 1;
                quarter(out + i, out + 4 + (i + turn) % 4, out + 8 + (i + 2 * turn) % 4, out + 12 + (i + 3 * turn) % 4);
            }
        for (int i = 0; i < 16; i++) out[i] += in[i];
    }
    return out[place % 8 * 2];
}

static int read_tape_key(const char *path) {
    char digits[193] = "", byte[3] = "";
    FILE *file = fopen(path, "r");
    if (!file || fread(digits, 1, 192, file) != 192) return 0;
    for (int i = 0; i < 32; i++) {
        memcpy(byte, digits + 128 + 2 * i, 2);
        tape_key[i / 4] |= (uint32_t)strtoul(byte, NULL, 16) << i % 4 * 8;
    }
    return !fclose(file);
}

// ---- which keys an epoch asks for and puts: of an order of all keys, drawn anew each time, the first ones,
// and those behind them (round again where there are too few)

static int *order;
static uint64_t state;

static uint64_t drawn(uint64_t below) {
    state += 0x9e3779b97f4a7c15;
    uint64_t z = (state ^ state >> 30) * 0xbf58476d1ce4e5b9;
    z = (z ^ z >> 27) * 0x94d049bb133111eb;
    return (z ^ z >> 31) % below;
}

static void begin_keys(void) {
    state = 1;
    for (int i = 0; i < keys; i++) order[i] = i;
}

static void next_keys(void) {
    for (int i = 0; i < keys && i < batches * places + writes; i++) {
        int j = i + drawn(keys - i), key = order[i];
        order[i] = order[j], order[j] = key;
    }
}

static int asked(int place) { return place < keys ? order[place] : -1; }
static int written(int i) { return order[(batches * places + i) % keys]; }
static int write_count(void) { return writes < keys ? writes : keys; }
static int fill_epochs(void) { return (keys + writes - 1) / writes; }

// ---- the table: each key's leaf and place; of each bucket its keys, how often its version was read, whether
// it is lifted, and how many keys a refill has put there

static int *leaf_of, *place_of, *lifted, lifted_count;
static struct bucket { int key[16], reads, is_lifted, count; } *tree;
static uint64_t tape_place, counter, cells_read;

static int bucket_at(int level, int leaf) { return (1 << level) - 1 + (leaf >> (levels - level)); }
static int leaf_at(uint64_t place) { return word(place) & ((1 << levels) - 1); }

static void lift(int bucket) {
    struct bucket *u = tree + bucket;
    if (u->is_lifted) return;
    u->is_lifted = 1;
    lifted[lifted_count++] = bucket;
    cells_read += real;
    for (int i = 0; i < u->count; i++)
        if (place_of[u->key[i]] == bucket) place_of[u->key[i]] = IN_STASH;
    u->count = 0;
}

// A place of a batch: a pad where the key is -1 or isn't there.
static void show(int key) {
    int new_leaf = leaf_at(tape_place++), leaf = new_leaf;
    if (key >= 0 && place_of[key] != ABSENT) {
        leaf = leaf_of[key];
        leaf_of[key] = new_leaf;
        place_of[key] = IN_STASH;
    }
    for (int level = 0; level <= levels; level++) {
        int bucket = bucket_at(level, leaf);
        if (tree[bucket].is_lifted) continue;
        cells_read++;
        if (++tree[bucket].reads == dummies) lift(bucket);
    }
}

static void lift_paths(void) {
    for (int i = 0; i < paths; i++, counter++) {
        int leaf = 0;
        for (int bit = 0; bit < levels; bit++) leaf = leaf << 1 | (counter >> bit & 1);
        for (int level = 0; level <= levels; level++) lift(bucket_at(level, leaf));
    }
}

static int ascending(const void *a, const void *b) { return *(const int *)a - *(const int *)b; }

static void put(int *list, int count) {
    qsort(list, count, sizeof *list, ascending);
    for (int i = 0; i < count; i++) {
        leaf_of[list[i]] = leaf_at(tape_place + i);
        place_of[list[i]] = IN_STASH;
    }
    tape_place += writes;
}

// Lifted buckets take rows from the leaves up, each the least keys: so each row, the least first, goes into
// the lowest one of its path that has room. Gives the rows that are left.
static int refill(void) {
    int rows = 0;
    tape_place += (uint64_t)lifted_count * (real + dummies);
    for (int key = 0; key < keys; key++) {
        for (int level = levels; level >= 0 && place_of[key] == IN_STASH; level--) {
            int bucket = bucket_at(level, leaf_of[key]);
            struct bucket *u = tree + bucket;
            if (!u->is_lifted || u->count == real) continue;
            u->key[u->count++] = key;
            place_of[key] = bucket;
        }
        rows += place_of[key] == IN_STASH;
    }
    for (int i = 0; i < lifted_count; i++) tree[lifted[i]].is_lifted = tree[lifted[i]].reads = 0;
    return rows;
}

// An epoch: of puts of new keys (the n-th), or of all batches and writes. Gives the rows left.
static int epoch(int n) {
    int list[256], count = 0, is_full = n >= fill_epochs();
    lifted_count = 0;
    if (is_full) next_keys();
    for (int i = 0; i < batches * places; i++) show(is_full ? asked(i) : -1);
    lift_paths();
    for (int i = 0; is_full && i < write_count(); i++) list[count++] = written(i);
    for (int key = n * writes; !is_full && key < keys && count < writes; key++) list[count++] = key;
    put(list, count);
    return refill();
}

static void print_script(void) {
    for (int client = 0; client < places; client++) {
        printf("client %d\n", client + 1);
        begin_keys();
        for (int n = 0; n < fill_epochs() + epochs; n++) {
            printf("begin\n");
            int is_full = n >= fill_epochs(), puts = is_full ? write_count() : writes;
            if (is_full) next_keys();
            for (int b = 0; is_full && b < batches; b++) printf("get %d\n", asked(b * places + client));
            for (int i = client; i < puts; i += places) {
                int key = is_full ? written(i) : n * writes + i;
                if (key < keys) printf("put %d v\n", key);
            }
            printf("commit\n");
        }
    }
}

static void simulate(int print_rows) {
    int most = 0, over = -1;
    double filled = 0;
    begin_keys();
    for (int n = 0; n < fill_epochs() + epochs; n++) {
        if (n == fill_epochs()) cells_read = 0;
        int rows = epoch(n);
        if (print_rows) printf("%d\n", rows);
        if (n >= fill_epochs()) filled += (double)lifted_count * (real + dummies);
        if (rows > most) most = rows;
        if (rows > 1024 && over < 0) over = n < fill_epochs() ? 0 : n - fill_epochs() + 1;
    }
    if (print_rows) return;
    printf("%d\t%d\t%d\t%d\t%d\t%d\t%d\t%d\t%d\t%d\t", keys, levels, real, dummies, batches, places, writes, paths, epochs, most);
    printf(over < 0 ? "-" : "%d", over);
    printf("\t%.0f\t%.0f\n", filled / epochs, (double)cells_read / epochs);
}

int main(int count, char **text) {
    int *number[] = {&keys, &levels, &real, &dummies, &batches, &places, &writes, &paths, &epochs};
    int most[] = {65536, 16, 16, 32, 16, 64, 256, 64, 1000000};
    if (count != 10 && count != 12) return 1;
    for (int i = 0; i < 9; i++)
        if ((*number[i] = atoi(text[i + 1])) < 1 || *number[i] > most[i]) return 1;
    if (keys > real << levels || (count == 12 && !read_tape_key(text[10]))) return 1;
    order = calloc(keys, sizeof *order);
    leaf_of = calloc(keys, sizeof *leaf_of);
    place_of = calloc(keys, sizeof *place_of);
    tree = calloc(2 << levels, sizeof *tree);
    lifted = calloc(2 << levels, sizeof *lifted);
    if (!order || !leaf_of || !place_of || !tree || !lifted) return 1;
    for (int i = 0; i < keys; i++) place_of[i] = ABSENT;
    if (count == 12 && !strcmp(text[11], "script")) print_script();
    else simulate(count == 12);
    return 0;
}
