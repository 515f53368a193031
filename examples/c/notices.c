/* Two files are configured on a fresh board, two notices joined into one transmission and run, one is read back, the unused memory
 * is told, the sign's thermometer is set right, and it is asked which kind of fault it saw. Then a new sign is started.
 * README.md says how it is built and run; notices.stdout is what it prints. */
#include <pagozkin.h>
#include <stdio.h>
#include <string.h>

#define MEMORY 512
#define FRAME 256

/* The board, and a buffer for its replies: both as large as the new sign's. */
static pagozkin_settings settings;
static uint8_t memory[PAGOZKIN_START_MEMORY];
static size_t memory_length;
static uint8_t reply[PAGOZKIN_START_MEMORY + PAGOZKIN_REPLY_ROOM];

static void make_board(size_t length)
{
    pagozkin_made made = pagozkin_fresh('C', memory, length);
    settings = made.settings;
    memory_length = length;
    printf("fresh: %u\n", made.number);
}

/* A frame under a header, summed, with one command. */
static size_t write_to(const char *header, char command, const char *text, uint8_t out[FRAME])
{
    pagozkin_written w = pagozkin_write(PAGOZKIN_SUMMED_FORM, (const uint8_t *)header, strlen(header), (uint8_t)command,
                                        (const uint8_t *)text, strlen(text), out, FRAME);
    printf("write %c: %u, %zu bytes\n", command, w.number, w.length);
    return w.length;
}

/* The same for every sign. */
static size_t write_frame(char command, const char *text, uint8_t out[FRAME])
{
    return write_to("Z00", command, text, out);
}

/* The blocks of a frame, one by one. Those of a printable frame stand in the room. */
static void list_blocks(const uint8_t *frame, size_t length)
{
    static uint8_t room[PAGOZKIN_ROOM];
    pagozkin_places p = pagozkin_read(frame, length, room);
    if (p.number != PAGOZKIN_DONE)
        return;
    const uint8_t *bytes = p.printable ? room : frame;
    size_t at = p.body;
    pagozkin_block_places b;
    do {
        b = pagozkin_step(bytes, p.length, at);
        printf("  %c, %zu bytes of data\n", b.command, b.to - b.from);
        at = b.next;
    } while (b.kind == PAGOZKIN_MORE);
}

/* Runs a frame on the board and keeps the next settings. */
static size_t run(const uint8_t *frame, size_t length)
{
    pagozkin_answer a = pagozkin_run(settings, memory, memory_length, reply, sizeof reply, frame, length);
    settings = a.settings;
    printf("run: %u, done %u, refused %u\n", a.number, a.tally.done, a.tally.refused);
    return a.tally.length;
}

/* What can be printed as it stands, the rest in hex. */
static void print_bytes(const uint8_t *bytes, size_t length)
{
    for (size_t i = 0; i < length; i++)
        printf(0x20 <= bytes[i] && bytes[i] <= 0x7E ? "%c" : "<%02X>", bytes[i]);
    printf("\n");
}

int main(void)
{
    uint8_t first[FRAME], second[FRAME], joined[FRAME];

    make_board(MEMORY);

    run(first, write_frame('E', "$AAU0040FF00BAU0040FF00", first));

    size_t m = write_frame('A', "ALEVEL 2 IS FULL", first);
    size_t n = write_frame('A', "BPERMITS: RENEW BY FRIDAY", second);
    pagozkin_written w = pagozkin_join(PAGOZKIN_SUMMED_FORM, first, m, second, n, joined, FRAME);
    printf("join: %u, %zu bytes\n", w.number, w.length);
    list_blocks(joined, w.length);
    run(joined, w.length);

    size_t length = run(first, write_frame('B', "B", first));
    print_bytes(reply, length);

    /* For a status page: the settings keep it, so no frame has to ask for it. */
    printf("unused: %u of %u bytes\n", settings.unused, MEMORY);

    /* A sign that reads two degrees warm: the offset is set once, and each reading is corrected by it. */
    run(first, write_frame('E', "T-2", first));
    pagozkin_corrected c = pagozkin_add_offset(settings.offset, 21);
    printf("temperature: %u, reads 21, shows %d\n", c.number, c.sum);

    /* A technician asks which kind of fault it was: a notice for a file that is not there, and what the port's driver saw. The reply
     * has the register, and clears it. */
    run(first, write_frame('A', "CLEVEL 3 IS FULL", first));
    pagozkin_driven d = pagozkin_port_errors(settings, PAGOZKIN_ERROR_FRAMING);
    settings = d.settings;
    printf("port errors: %u, register %02X\n", d.number, settings.errors);
    length = run(first, write_frame('F', "*", first));
    print_bytes(reply, length);
    printf("register %02X\n", settings.errors);

    /* An installer's first frame, type "z": the new sign has the files "A" to "Z", and the frame's own notice is in "A" already. */
    make_board(PAGOZKIN_START_MEMORY);
    run(first, write_to("z00", 'A', "ALEVEL 1 OPENS ON MONDAY", first));
    printf("files: %u, unused: %u of %u bytes\n", settings.files, settings.unused, PAGOZKIN_START_MEMORY);
    length = run(first, write_frame('B', "A", first));
    print_bytes(reply, length);
    return 0;
}
