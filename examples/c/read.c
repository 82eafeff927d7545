/* Reads a network file, tells what is in it, and writes it back.
 *   read NETWORK
 */
#include "../../include/terminal.h"
#include "file.h"
#include <string.h>

static uint8_t net[HAUL_MOST_NET_BYTES + 1];
static uint8_t back[HAUL_MOST_NET_BYTES];
static uint32_t list[HAUL_MOST_NET_NUMBERS];

int main(int argc, char **argv)
{
    if (argc != 2) {
        fprintf(stderr, "read NETWORK\n");
        return 2;
    }
    size_t length = read_file(argv[1], net, sizeof net);
    haul_reply read = haul_read(net, length, list, HAUL_MOST_NET_NUMBERS);
    printf("read: answer %u, %u numbers\n", read.number, read.length);
    if (read.number != HAUL_DONE)
        return 1;
    printf("%u places, %u legs\n", list[1], list[2]);
    haul_reply written = haul_write(list, read.length, back, sizeof back);
    printf("write: answer %u, %u bytes\n", written.number, written.length);
    if (written.number != HAUL_DONE || written.length != length || memcmp(net, back, length) != 0) {
        printf("the bytes written are not those read\n");
        return 1;
    }
    printf("the bytes written are those read\n");
    return 0;
}
