/* expressions: libpcap's side of tests/expressions.py. A line of standard input is `compile LINK EXPRESSION`, which is answered by the text of
 * `tcpdump -ddd` with `/` for the ends of lines, or `no`; or `filter TEXT ROOM HEX..`, which is answered by what bpf_filter() says of each packet
 * of which ROOM bytes are there (`none` is an empty one); or `show TEXT`, which is answered by the lines of `tcpdump -d`, each with `/` behind it. */
#include <pcap/pcap.h>
#include <stdio.h>
#include <stdlib.h>
#include <string.h>

static struct bpf_insn code[4096];
static unsigned char packet[65536];

static void compile(void)
{
    char *link = strtok(NULL, " "), *text = strtok(NULL, "\n");
    pcap_t *dead = pcap_open_dead(pcap_datalink_name_to_val(link), 262144);
    struct bpf_program made;

    if (dead == NULL || pcap_compile(dead, &made, text, 1, 0xffffff00) != 0) {
        puts("no");
    } else {
        printf("%u", made.bf_len);
        for (unsigned at = 0; at < made.bf_len; at++)
            printf("/%u %u %u %u", made.bf_insns[at].code, made.bf_insns[at].jt, made.bf_insns[at].jf, made.bf_insns[at].k);
        puts("/");
        pcap_freecode(&made);
    }
    if (dead != NULL)
        pcap_close(dead);
}

/* Reads the instructions of a text, and says how many there are. */
static size_t read_code(char *text)
{
    char *end;
    size_t count = strtoul(text, &end, 10);

    for (size_t at = 0; at < count; at++) {
        code[at].code = strtoul(end + 1, &end, 10);
        code[at].jt = strtoul(end + 1, &end, 10);
        code[at].jf = strtoul(end + 1, &end, 10);
        code[at].k = strtoul(end + 1, &end, 10);
    }
    return count;
}

static void show(void)
{
    size_t count = read_code(strtok(NULL, " \n"));

    for (size_t at = 0; at < count; at++)
        printf("%s/", bpf_image(&code[at], (int)at));
    puts("");
}

static void filter(void)
{
    char *text = strtok(NULL, " ");
    size_t room = strtoul(strtok(NULL, " "), NULL, 10);

    read_code(text);
    for (char *hex = strtok(NULL, " \n"); hex != NULL; hex = strtok(NULL, " \n")) {
        size_t size = strcmp(hex, "none") == 0 ? 0 : strlen(hex) / 2;
        for (size_t at = 0; at < size; at++) {
            char pair[3] = {hex[2 * at], hex[2 * at + 1], 0};
            packet[at] = strtoul(pair, NULL, 16);
        }
        printf("%u ", bpf_filter(code, packet, size, size < room ? size : room));
    }
    puts("");
}

int main(void)
{
    static char line[1 << 22];

    while (fgets(line, sizeof line, stdin)) {
        char *word = strtok(line, " ");
        if (word != NULL && strcmp(word, "compile") == 0)
            compile();
        else if (word != NULL && strcmp(word, "show") == 0)
            show();
        else if (word != NULL)
            filter();
        fflush(stdout);
    }
    return 0;
}
