/* The calls of the archive libterminal.a, which `tools/archive` makes in target/staticlib/.
 *
 * Nothing is allocated and nothing is kept between calls. The caller lends every buffer; a buffer is a
 * pointer and the number of its bytes or numbers. A pointer is never null (with a length of 0 it may point
 * anywhere). Lent buffers do not overlap.
 *
 * Every call answers on every input. A promise below holds whatever the bytes are.
 */
#ifndef TERMINAL_H
#define TERMINAL_H

#include <stddef.h>
#include <stdint.h>

#ifdef __cplusplus
extern "C" {
#endif

/* What comes back: a number of the table below, and the length of what stands at the front of the output
 * (0 with every answer that writes nothing). */
typedef struct haul_reply {
    uint32_t number;
    uint32_t length;
} haul_reply;

/* The numbers, in the order in which they are tested. */
enum {
    HAUL_DONE = 0,             /* done */
    HAUL_NET_SHORT = 1,        /* network bytes (or the list) end before a field is complete */
    HAUL_NET_EDITION = 2,      /* network edition not 1 */
    HAUL_NET_RANGE = 3,        /* a network field is out of its range */
    HAUL_NET_BANDS = 4,        /* first band not at 0, or a start not above the one before */
    HAUL_NET_TAIL = 5,         /* a fill bit is 1, or bytes (or numbers) follow */
    HAUL_QUERY_RANGE = 6,      /* start or end not below places, or a query time over 2,879 */
    HAUL_QUERY_ORDER = 7,      /* earliest after latest */
    HAUL_TABLE_SMALL = 8,      /* fewer than places x window table cells */
    HAUL_ROOM_SMALL = 9,       /* output room smaller than the file or list to be written */
    HAUL_NO_PLAN = 10,         /* no feasible plan; the file that says so is written all the same */
    HAUL_PLAN_FILE = 11,       /* not a plan file */
    HAUL_PLAN_UNSOUND = 12,    /* plan not feasible, or its stated cost is not the sum of its tolls */
    HAUL_SHEET_FILE = 13,      /* not a sheet file for this network and window */
    HAUL_SHEET_BREAKS = 14,    /* sheet breaks rule (a) or (b) */
    HAUL_SHEET_NOT_TIGHT = 15  /* the sheet does not show that the plan is cheapest */
};

/* Sizes that always suffice. */
enum {
    HAUL_MOST_NET_BYTES = 16132,     /* the largest network file: 64 places, 512 legs, 8 bands each */
    HAUL_MOST_NET_NUMBERS = 10243,   /* its numbers */
    HAUL_MOST_CELLS = 184320,        /* 64 places x 2,880 minutes */
    HAUL_MOST_PLAN_BYTES = 177,      /* a plan of 63 legs */
    HAUL_NONE_PLAN_BYTES = 12,       /* the plan file that says "none" */
    HAUL_MOST_SHEET_BYTES = 1013858  /* 64 places with 2,880 steps each */
};

/* Reads a network file. Answers 0 to 5 and 9. With 0 the value of each field, edition first, stands at the
 * front of `list` and their count is returned; all else of `list`, and all of it otherwise, is kept. */
haul_reply haul_read(const uint8_t *net, size_t net_len, uint32_t *list, size_t list_len);

/* Writes such a list as a network file. Answers 0 to 5 and 9. With 0 the file stands at the front of `out`
 * and its length is returned; all else of `out`, and all of it otherwise, is kept. */
haul_reply haul_write(const uint32_t *list, size_t list_len, uint8_t *out, size_t out_len);

/* Plans one query. Answers 0 to 10. With 0 the plan file of the cheapest plan (the earliest to arrive of
 * those, the shortest of those, and so on by the tie rule), with 10 the file "none", stands at the front of
 * `out`. With 0, 9 and 10 `table` holds the minute table; with 1 to 8 it is kept. */
haul_reply haul_plan(const uint8_t *net, size_t net_len,
                     uint32_t start, uint32_t end, uint32_t earliest, uint32_t latest,
                     uint32_t *table, size_t table_len, uint8_t *out, size_t out_len);

/* Writes the bound sheet of one query: for each place the least cost at each minute, as steps. Answers and
 * table as haul_plan; the sheet is written with 0 and with 10. */
haul_reply haul_sheet(const uint8_t *net, size_t net_len,
                      uint32_t start, uint32_t end, uint32_t earliest, uint32_t latest,
                      uint32_t *table, size_t table_len, uint8_t *out, size_t out_len);

/* Judges a plan and a sheet that anybody may have written. Answers 0 to 7 and 11 to 15; 0 exactly when the
 * plan is feasible and costs what it states (or is "none") and the sheet proves that nothing is cheaper (or
 * that there is no plan). Writes nothing. */
uint32_t haul_gate(const uint8_t *net, size_t net_len, const uint8_t *plan, size_t plan_len,
                   const uint8_t *sheet, size_t sheet_len);

#ifdef __cplusplus
}
#endif

#endif
