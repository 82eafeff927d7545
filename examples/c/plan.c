/* Plans a query, writes its sheet, and passes both through the gate.
 *   plan NETWORK START END EARLIEST LATEST
 */
#include "../../include/terminal.h"
#include "file.h"

static uint8_t net[HAUL_MOST_NET_BYTES + 1];
static uint32_t table[HAUL_MOST_CELLS];
static uint8_t plan[HAUL_MOST_PLAN_BYTES];
static uint8_t sheet[HAUL_MOST_SHEET_BYTES];

/* A field of a file: `width` bits from bit `at` on. */
static uint32_t field(const uint8_t *file, size_t at, size_t width)
{
    uint32_t value = 0;
    for (size_t k = at; k < at + width; k++)
        value = value << 1 | (file[k / 8] >> (7 - k % 8) & 1);
    return value;
}

static void print_plan(const uint8_t *file)
{
    printf("cost %u\n", field(file, 45, 32));
    uint32_t legs = field(file, 77, 12);
    for (uint32_t k = 0; k < legs; k++)
        printf("leg %u leave %u\n", field(file, 89 + 21 * k, 9), field(file, 98 + 21 * k, 12));
}

int main(int argc, char **argv)
{
    if (argc != 6) {
        fprintf(stderr, "plan NETWORK START END EARLIEST LATEST\n");
        return 2;
    }
    size_t length = read_file(argv[1], net, sizeof net);
    uint32_t start = strtoul(argv[2], NULL, 10), end = strtoul(argv[3], NULL, 10);
    uint32_t earliest = strtoul(argv[4], NULL, 10), latest = strtoul(argv[5], NULL, 10);

    haul_reply planned = haul_plan(net, length, start, end, earliest, latest,
                                   table, HAUL_MOST_CELLS, plan, sizeof plan);
    printf("plan: answer %u, %u bytes\n", planned.number, planned.length);
    if (planned.number == HAUL_DONE)
        print_plan(plan);
    else if (planned.number != HAUL_NO_PLAN)
        return 1;

    haul_reply bound = haul_sheet(net, length, start, end, earliest, latest,
                                  table, HAUL_MOST_CELLS, sheet, sizeof sheet);
    printf("sheet: answer %u, %u bytes\n", bound.number, bound.length);

    uint32_t verdict = haul_gate(net, length, plan, planned.length, sheet, bound.length);
    printf("gate: answer %u\n", verdict);
    return verdict == HAUL_DONE ? 0 : 1;
}
