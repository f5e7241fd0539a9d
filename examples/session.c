/* A session with the static library from C: a list of two meters made byte by byte, then what a master does with it:
 * SND_NKE, REQ_UD2 with both FCB, a secondary select, a telegram that comes in two pieces, a new address, a new baud;
 * and the segment written back as a list.
 * cc -I include examples/session.c target/staticlib/libjezynar.a -o session; examples/session.txt is what it writes. */
#include <stdio.h>
#include <string.h>

#include "jezynar.h"

static uint8_t image[JEZYNAR_IMAGE_LEN];
static const struct jezynar_clock noon = {3725.5, 2026, 10, 1, 12, 34};

/* ---- a meter list */

static uint8_t list[3 + JEZYNAR_METERS * 256];
static size_t list_len = 3;

static void add_text(const char *text)
{
    list[list_len++] = (uint8_t)strlen(text);
    memcpy(list + list_len, text, strlen(text));
    list_len += strlen(text);
}

static void add_meter(uint8_t primary, const char *id, const char *manufacturer, const char *medium)
{
    size_t record = list_len++; /* the length of the rest, known at the end */
    list[list_len++] = primary;
    list[list_len++] = 1; /* version */
    memset(list + list_len, 0, 4); /* own baud: the bus's */
    list_len += 4;
    add_text(id);
    add_text(manufacturer);
    add_text(medium);
    add_text("none");
    list[record] = (uint8_t)(list_len - record - 1);
    list[0] = 1;
    list[1] = (uint8_t)((list_len - 3) / 256);
    list[2] = (uint8_t)((list_len - 3) % 256);
}

/* ---- telegrams */

static void print_bytes(const char *what, const uint8_t *bytes, size_t len)
{
    printf("%s", what);
    for (size_t i = 0; i < len; i++)
        printf(" %02X", bytes[i]);
    putchar('\n');
}

/* Takes every reply out of the queue, says what telegrams they are, and answers how many bytes there were. */
static size_t print_replies(void)
{
    uint8_t replies[JEZYNAR_QUEUE_LEN], out[JEZYNAR_DESCRIPTION_LEN];
    size_t len = 0, got, at = 0;
    while ((got = jezynar_segment_receive(image, replies + len, sizeof replies - len)) > 0)
        len += got;
    print_bytes("  reply", replies, len);
    while (at < len && jezynar_parse_result(jezynar_frame_parse(replies + at, len - at, out)) == JEZYNAR_COMPLETE) {
        struct jezynar_description telegram = jezynar_read_description(out);
        if (telegram.kind == JEZYNAR_ACK)
            puts("  an acknowledgement");
        else
            printf("  C %02X, address %u, CI %02X, %lu data bytes\n", telegram.control, telegram.address, telegram.ci,
                   (unsigned long)telegram.data_len);
        at += telegram.telegram_len;
    }
    return len;
}

/* Answers how many bytes are due, 0 where the piece was refused. */
static uint32_t send(const char *what, const uint8_t *piece, size_t len)
{
    print_bytes(what, piece, len);
    uint32_t answer = jezynar_send(image, piece, len, &noon);
    uint32_t number = jezynar_sent_number(answer);
    if (number != JEZYNAR_ACCEPTED) {
        printf("refused %lu: %s\n", (unsigned long)number, jezynar_refusal_text(number));
        return 0;
    }
    print_replies();
    return jezynar_sent_due(answer);
}

static size_t encode(uint8_t kind, uint8_t control, uint8_t address, uint8_t ci, const uint8_t *data, size_t data_len,
                     uint8_t *buffer)
{
    return jezynar_encode_len(
        jezynar_frame_encode(kind, control, address, ci, data, data_len, buffer, JEZYNAR_TELEGRAM_LEN));
}

int main(void)
{
    uint8_t telegram[JEZYNAR_TELEGRAM_LEN];
    size_t len;
    add_meter(5, "12345678", "KAM", "water");
    add_meter(6, "12345699", "SEN", "heat");
    print_bytes("list", list, list_len);

    jezynar_segment_new(image);
    uint32_t answer = jezynar_segment_open(image, list, list_len, 2400, false, 0.0);
    if (jezynar_open_number(answer) != JEZYNAR_ACCEPTED) {
        printf("refused %lu: %s, record %lu\n", (unsigned long)jezynar_open_number(answer),
               jezynar_refusal_text(jezynar_open_number(answer)), (unsigned long)jezynar_open_index(answer));
        return 1;
    }

    len = encode(JEZYNAR_SHORT, JEZYNAR_C_SND_NKE, 5, 0, NULL, 0, telegram);
    if (send("SND_NKE to 5", telegram, len) == 0)
        return 1;

    len = encode(JEZYNAR_SHORT, JEZYNAR_C_REQ_UD2, 5, 0, NULL, 0, telegram);
    if (send("REQ_UD2 to 5, FCB clear", telegram, len) == 0)
        return 1;
    len = encode(JEZYNAR_SHORT, JEZYNAR_C_REQ_UD2 | JEZYNAR_FCB, 5, 0, NULL, 0, telegram);
    if (send("REQ_UD2 to 5, FCB set", telegram, len) == 0)
        return 1;

    /* Select by the id, low byte first; any manufacturer, version and medium. Then read the selected meter. */
    const uint8_t mask[8] = {0x99, 0x56, 0x34, 0x12, 0xFF, 0xFF, 0xFF, 0xFF};
    len = encode(JEZYNAR_LONG, JEZYNAR_C_SND_UD, JEZYNAR_ADDR_SELECTED, JEZYNAR_CI_SELECT, mask, sizeof mask, telegram);
    if (send("select 12345699", telegram, len) == 0)
        return 1;

    /* The beginning of a telegram, and then as many bytes as are due: its rest. */
    encode(JEZYNAR_SHORT, JEZYNAR_C_REQ_UD2, JEZYNAR_ADDR_SELECTED, 0, NULL, 0, telegram);
    uint32_t due = send("REQ_UD2 to the selected, first half", telegram, 2);
    if (due == 0)
        return 1;
    printf("  %lu bytes are due\n", (unsigned long)due);
    if (send("and the rest", telegram + 2, due) == 0)
        return 1;

    /* Another address for the selected meter, and another rate: CI B8 to BF are the eight, from 300 Bd on. */
    const uint8_t address[3] = {0x01, 0x7A, 7};
    len = encode(JEZYNAR_LONG, JEZYNAR_C_SND_UD, JEZYNAR_ADDR_SELECTED, JEZYNAR_CI_DATA_SEND, address, sizeof address,
                 telegram);
    if (send("address 7 for the selected", telegram, len) == 0)
        return 1;
    len = encode(JEZYNAR_LONG, JEZYNAR_C_SND_UD, 7, 0xBD, NULL, 0, telegram);
    if (send("9600 Bd for 7", telegram, len) == 0)
        return 1;

    /* The list of the meters as they are now, to be opened at 2400 Bd again. */
    uint8_t now[JEZYNAR_EXPORT_LEN];
    answer = jezynar_segment_export(image, now, sizeof now);
    if (jezynar_exported_number(answer) != JEZYNAR_ACCEPTED) {
        printf("refused %lu: %s\n", (unsigned long)jezynar_exported_number(answer),
               jezynar_refusal_text(jezynar_exported_number(answer)));
        return 1;
    }
    print_bytes("list now", now, jezynar_exported_len(answer));
    return 0;
}
