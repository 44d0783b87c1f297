/* Two desks replace different links of one section. Whoever is first, the same section goes on air. */
#include "links.h"

enum { ROOM = 160 };

static size_t desk_a(uint8_t *buffer)
{
    eallunsa_edit_answer answer = eallunsa_rct_replace(buffer, ROOM, 0, text, TEXT_LENGTH, later_programme());
    print_edit("desk A replaces 0", buffer, answer);
    return answer.total;
}

static size_t desk_b(uint8_t *buffer)
{
    eallunsa_edit_answer answer = eallunsa_rct_replace(buffer, ROOM, 1, text, TEXT_LENGTH, page_and_broadcast());
    print_edit("desk B replaces 1", buffer, answer);
    return answer.total;
}

int main(void)
{
    uint8_t one[ROOM], other[ROOM];

    morning(one, ROOM);
    desk_a(one);
    size_t one_total = desk_b(one);

    morning(other, ROOM);
    desk_b(other);
    size_t other_total = desk_a(other);

    int same = one_total == other_total && memcmp(one, other, one_total) == 0;
    printf("%s\n", same ? "both orders end in the same section" : "THE ORDERS DIFFER");
    return same ? 0 : 1;
}
