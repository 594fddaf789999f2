/* The six calls on a card: cameras CARD */
#include <calstore.h>
#include <stdio.h>
#include <string.h>

#define BYTES(text) (const uint8_t *)(text), sizeof(text) - 1

static uint8_t card[4096 * 1024], scratch[sizeof card];

/* The free pages as the card keeps them in bytes 28 to 31, one more than there are; -1 where it does not. */
static long kept_free(void) {
    return ((long)card[28] << 24 | (long)card[29] << 16 | (long)card[30] << 8 | (long)card[31]) - 1;
}

int main(int argc, char **argv) {
    FILE *file = argc == 2 ? fopen(argv[1], "rb") : NULL;
    if (!file) {
        fprintf(stderr, "usage: cameras CARD\n");
        return 2;
    }
    size_t n = fread(card, 1, sizeof card, file);
    fclose(file);

    struct calstore_answer a = calstore_create(card, n, scratch, sizeof scratch, BYTES("lens"));
    printf("create lens: %u\n", a.number);
    a = calstore_put(card, n, scratch, sizeof scratch, BYTES("lens"), BYTES("cam1"), BYTES("f=1050 k1=-0.11"));
    printf("put cam1: %u\n", a.number);
    a = calstore_put(card, n, scratch, sizeof scratch, BYTES("lens"), BYTES("cam2"), BYTES("f=985 k1=-0.09"));
    printf("put cam2: %u\n", a.number);
    printf("pages left: %ld\n", kept_free());

    uint8_t record[65535];
    a = calstore_get(card, n, scratch, sizeof scratch, BYTES("lens"), BYTES("cam2"), record, sizeof record);
    printf("get cam2: %u %.*s\n", a.number, (int)a.length, (char *)record);
    a = calstore_get(card, n, scratch, sizeof scratch, BYTES("lens"), BYTES("cam3"), record, sizeof record);
    printf("get cam3: %u\n", a.number);

    /* the keys in their order: each is asked for with the one before, the first with the empty key */
    uint8_t key[65535], above[65535];
    size_t length = 0;
    for (;;) {
        a = calstore_next(card, n, scratch, sizeof scratch, BYTES("lens"), key, length, above, sizeof above);
        if (a.number != CALSTORE_DONE)
            break;
        memcpy(key, above, a.length);
        length = a.length;
        printf("next: %.*s\n", (int)length, (char *)key);
    }

    a = calstore_remove(card, n, scratch, sizeof scratch, BYTES("lens"), BYTES("cam1"));
    printf("remove cam1: %u\n", a.number);
    a = calstore_check(card, n, scratch, sizeof scratch);
    printf("check: %u pages %d tables %d keys %d free %d\n", a.number, (int)a.pages, (int)a.tables, (int)a.keys, (int)a.free);
    return 0;
}
