#include "sackbutflare.h"
#include <stdio.h>

int main(void)
{
    static uint8_t rack[65536], list[512];
    size_t length = fread(rack, 1, sizeof rack, stdin);
    struct sackbutflare_walked w = sackbutflare_walk(rack, length, false, 0, list, sizeof list);
    printf("refusal %u, labels %zu, rounds %zu\n", w.number, w.labels, w.rounds);
}
