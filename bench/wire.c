/* What answers in bench/wire.py: remote bitbang to one part with an instruction register of 4 bits, an identity and a
 * bypass register. It answers the bytes of a read as soon as it has gone through them.
 *
 *     wire                prints a TCP port of the loopback, and listens there for one session
 *     wire BYTES ANSWERS  opens the pipe of the answers, and then that of the bytes
 *
 * After a Q, or at the end of the bytes, it prints how many clocks there were, how many bytes, how often it answered,
 * and how often one R alone. */
#include <arpa/inet.h>
#include <fcntl.h>
#include <netinet/tcp.h>
#include <stdint.h>
#include <stdio.h>
#include <sys/socket.h>
#include <unistd.h>

enum { PIECE = 65536, SELECT_IDENTITY = 14 };

static const uint32_t identity = 0x4BA00477;

enum state {
    RESET, IDLE, DR_SELECT, DR_CAPTURE, DR_SHIFT, DR_EXIT1, DR_PAUSE, DR_EXIT2, DR_UPDATE,
    IR_SELECT, IR_CAPTURE, IR_SHIFT, IR_EXIT1, IR_PAUSE, IR_EXIT2, IR_UPDATE
};

/* The states after TMS 0 and after TMS 1. */
static const uint8_t after[16][2] = {
    {IDLE, RESET}, {IDLE, DR_SELECT}, {DR_CAPTURE, IR_SELECT}, {DR_SHIFT, DR_EXIT1}, {DR_SHIFT, DR_EXIT1},
    {DR_PAUSE, DR_UPDATE}, {DR_PAUSE, DR_EXIT2}, {DR_SHIFT, DR_UPDATE}, {IDLE, DR_SELECT}, {IR_CAPTURE, RESET},
    {IR_SHIFT, IR_EXIT1}, {IR_SHIFT, IR_EXIT1}, {IR_PAUSE, IR_UPDATE}, {IR_PAUSE, IR_EXIT2}, {IR_SHIFT, IR_UPDATE},
    {IDLE, DR_SELECT}
};

static uint8_t state = RESET, instruction = SELECT_IDENTITY;
static uint32_t list;

static int tdo(void) {
    return state == DR_SHIFT || state == IR_SHIFT ? list & 1 : 1;
}

static void clock_part(uint32_t tms, uint32_t tdi) {
    switch (state) {
    case IR_CAPTURE: list = 1; break;
    case IR_SHIFT: list = list >> 1 | tdi << 3; break;
    case DR_CAPTURE: list = instruction == SELECT_IDENTITY ? identity : 0; break;
    case DR_SHIFT: list = instruction == SELECT_IDENTITY ? list >> 1 | tdi << 31 : tdi; break;
    default: break;
    }
    state = after[state][tms];
    if (state == IR_UPDATE) instruction = (uint8_t)list;
    if (state == RESET) instruction = SELECT_IDENTITY;
}

static int accepted(void) {
    struct sockaddr_in address = {.sin_family = AF_INET, .sin_addr.s_addr = htonl(INADDR_LOOPBACK)};
    struct sockaddr *at = (struct sockaddr *)&address;
    socklen_t size = sizeof address;
    int listener = socket(AF_INET, SOCK_STREAM, 0), at_once = 1;
    if (bind(listener, at, size) || listen(listener, 1) || getsockname(listener, at, &size)) return -1;
    printf("%d\n", ntohs(address.sin_port));
    fflush(stdout);
    int end = accept(listener, NULL, NULL);
    setsockopt(end, IPPROTO_TCP, TCP_NODELAY, &at_once, sizeof at_once);
    return end;
}

int main(int argc, char **argv) {
    static char bytes[PIECE], answers[PIECE];
    long clocks = 0, count = 0, exchanges = 0, alone = 0, n;
    int tck = 0, ended = 0, from, to;
    if (argc != 1 && argc != 3) return 2;
    to = argc == 3 ? open(argv[2], O_WRONLY) : accepted();
    from = argc == 3 ? open(argv[1], O_RDONLY) : to;
    while (!ended && (n = read(from, bytes, sizeof bytes)) > 0) {
        long due = 0;
        count += n;
        for (long i = 0; i < n && !ended; i++) {
            int byte = bytes[i];
            if (byte >= '0' && byte <= '7') {
                if (byte & 4 && !tck) {
                    clock_part(byte >> 1 & 1, byte & 1);
                    clocks++;
                }
                tck = byte >> 2 & 1;
            } else if (byte == 'R') {
                answers[due++] = (char)('0' + tdo());
            } else {
                ended = byte == 'Q';
            }
        }
        exchanges += due > 0;
        alone += due == 1;
        for (long sent = 0; sent < due; sent += n)
            if ((n = write(to, answers + sent, (size_t)(due - sent))) <= 0) return 1;
    }
    printf("%ld %ld %ld %ld\n", clocks, count, exchanges, alone);
    return 0;
}
