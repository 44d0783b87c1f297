/* theirs take FILE: pushes a file's transport packets into libdvbpsi's packet decoder, which gathers sections and checks their
   CRC; a line 'HEX' for each that it hands over.
   theirs make: reads lines 'NAME TABLE PRIVATE EXTENSION VERSION CURRENT NUMBER LAST PAYLOAD' and has libdvbpsi build a section
   of each; a line 'NAME HEX' each. PAYLOAD is hex, or - for none.
   What libdvbpsi says goes to standard error. */
#include <stdbool.h>
#include <stdint.h>
#include <stdio.h>
#include <stdlib.h>
#include <string.h>
#include <dvbpsi/dvbpsi.h>
#include <dvbpsi/psi.h>

static void say(dvbpsi_t *handle, const dvbpsi_msg_level_t level, const char *text)
{
    (void)handle, (void)level;
    fprintf(stderr, "libdvbpsi: %s\n", text);
}

static void show(const dvbpsi_psi_section_t *s)
{
    for (int i = 0; i < s->i_length + 3; i++) printf("%02x", s->p_data[i]);
    putchar('\n');
}

static void gather(dvbpsi_t *handle, dvbpsi_psi_section_t *s)
{
    (void)handle;
    if (s->b_syntax_indicator && dvbpsi_ValidPSISection(s)) show(s);
    dvbpsi_DeletePSISections(s);
}

static int take(dvbpsi_t *handle, const char *path)
{
    uint8_t packet[188];
    FILE *f = fopen(path, "rb");
    if (!f) return 1;
    handle->p_decoder = dvbpsi_decoder_new(gather, 4096, true, sizeof(dvbpsi_decoder_t));
    if (!handle->p_decoder) return 1;
    while (fread(packet, sizeof packet, 1, f) == 1) dvbpsi_packet_push(handle, packet);
    dvbpsi_decoder_delete(handle->p_decoder);
    handle->p_decoder = NULL;
    fclose(f);
    return 0;
}

static int make(dvbpsi_t *handle)
{
    static char name[64], payload[8401];
    unsigned table, private, extension, version, current, number, last, byte;
    while (scanf("%63s %u %u %u %u %u %u %u %8400s", name, &table, &private, &extension, &version, &current, &number, &last,
                 payload) == 9) {
        size_t n = payload[0] == '-' ? 0 : strlen(payload) / 2;
        dvbpsi_psi_section_t *s = dvbpsi_NewPSISection(4096);
        if (!s || n + 12 > 4096) return 1;
        s->i_table_id = (uint8_t)table;
        s->b_syntax_indicator = true;
        s->b_private_indicator = private;
        s->i_extension = (uint16_t)extension;
        s->i_version = (uint8_t)version;
        s->b_current_next = current;
        s->i_number = (uint8_t)number;
        s->i_last_number = (uint8_t)last;
        s->p_payload_start = s->p_data + 8;
        s->p_payload_end = s->p_payload_start + n;
        s->i_length = (uint16_t)(5 + n + 4);
        for (size_t i = 0; i < n; i++) {
            if (sscanf(payload + 2 * i, "%2x", &byte) != 1) return 1;
            s->p_payload_start[i] = (uint8_t)byte;
        }
        dvbpsi_BuildPSISection(handle, s);
        printf("%s ", name);
        show(s);
        dvbpsi_DeletePSISections(s);
    }
    return 0;
}

int main(int argc, char **argv)
{
    dvbpsi_t *handle = dvbpsi_new(say, DVBPSI_MSG_WARN);
    int bad = 1;
    if (handle && argc == 3 && !strcmp(argv[1], "take")) bad = take(handle, argv[2]);
    if (handle && argc == 2 && !strcmp(argv[1], "make")) bad = make(handle);
    if (bad) fprintf(stderr, "theirs: usage: theirs take FILE | theirs make; or the file or a line cannot be read\n");
    if (handle) dvbpsi_delete(handle);
    return bad;
}
