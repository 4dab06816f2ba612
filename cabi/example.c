/* Goes over the journal on standard input: place, type byte and length of each record, then how it ends. README quotes it, cabi/test runs it. */
#include "balunduwa.h"
#include <stdio.h>

int main(void) {
    static uint8_t journal[BALUNDUWA_LIMIT + 1];
    size_t n = fread(journal, 1, sizeof journal, stdin);
    size_t place = 0;
    for (;;) {
        balunduwa_step step = balunduwa_walk_step(journal, n, place);
        if (step.refusal.number != 0) {
            printf("refused %zu\n", step.refusal.number);
            return 1;
        }
        if (step.what != BALUNDUWA_RECORD) {
            printf("%s %zu %zu\n", step.what == BALUNDUWA_WHOLE ? "whole" : "cut", step.next, step.value.len);
            return 0;
        }
        printf("%zu %d %zu\n", place, step.tlv_type, step.value.len);
        place = step.next;
    }
}
