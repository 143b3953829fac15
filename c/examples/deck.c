/* Shuffles a deck, rolls a die, reads a stream and draws lots. Each run prints the same. */
#include <stdio.h>
#include <string.h>

#include "nanorand.h"

enum { CARDS = 52, THROWS = 10, ENTRANTS = 12, WINNERS = 3 };

static const char *const names[ENTRANTS] = {
    "Ada",   "Barbara", "Chidi", "Dmitri", "Elif",      "Farid",
    "Grace", "Hedy",    "Ines",  "Jun",    "Katherine", "Lise",
};

static int shuffle_deck(void)
{
    nanorand_pcg64 rng;
    nanorand_pcg64_seed_from_u64(&rng, 2026);
    size_t cards[CARDS];
    for (size_t place = 0; place < CARDS; place++) {
        cards[place] = place;
    }
    if (nanorand_pcg64_shuffle(&rng, cards, CARDS) != NANORAND_OK) {
        return 1;
    }
    printf("deck:");
    for (size_t place = 0; place < CARDS; place++) {
        printf(" %c%c", "A23456789TJQK"[cards[place] % 13], "CDHS"[cards[place] / 13]);
    }
    printf("\n");
    return 0;
}

static int throw_die(void)
{
    nanorand_wyrand rng;
    nanorand_wyrand_seed_from_u64(&rng, 42);
    printf("die:");
    for (int count = 0; count < THROWS; count++) {
        uint32_t pips;
        if (nanorand_wyrand_range_u32(&rng, 1, 6, &pips) != NANORAND_OK) {
            return 1;
        }
        printf(" %u", (unsigned)pips);
    }
    printf("\n");
    return 0;
}

/* Requests of 3, 64 and 1 bytes. Together they are the first 68 bytes of the keystream. */
static void read_stream(void)
{
    nanorand_stream stream;
    uint8_t bytes[68];
    memset(&stream, 0, sizeof stream); /* key, nonce and counter 0, nothing buffered */
    nanorand_stream_fill_bytes(&stream, bytes, 3);
    nanorand_stream_fill_bytes(&stream, bytes + 3, 64);
    nanorand_stream_fill_bytes(&stream, bytes + 67, 1);
    printf("stream:");
    for (size_t place = 0; place < sizeof bytes; place++) {
        printf(" %02x", bytes[place]);
    }
    printf("\n");
}

static int draw_lots(void)
{
    const char *seed = "4 1 6 3 3 2 5 6 1 4 2 6 5 3 1 1 6 2 4 5";
    size_t places[ENTRANTS] = {0};
    nanorand_lots_status status =
        nanorand_lots_draw((const uint8_t *)seed, strlen(seed), places, ENTRANTS, WINNERS);
    if (status != NANORAND_LOTS_OK) {
        return 1;
    }
    printf("lots:");
    for (size_t place = 0; place < WINNERS; place++) {
        printf(" %s", names[places[place]]);
    }
    printf("\n");
    return 0;
}

int main(void)
{
    if (nanorand_version() != NANORAND_VERSION) {
        fprintf(stderr, "deck: the library is of another version than its header\n");
        return 1;
    }
    if (shuffle_deck() != 0 || throw_die() != 0) {
        return 1;
    }
    read_stream();
    return draw_lots();
}
