/* A stock bot for no-limit hold'em of two with reversed blinds, stacks of 20000 and blinds of 100 and 50:
   relay_bot SEED HOST PORT RECORD [MICROSECONDS]. It dials once, thinks so long at its turn, acts by SEED and the line
   alone, keeps each line that it gets in RECORD, and ends by 0 with the connection. All its actions are legal. */
#include <netdb.h>
#include <netinet/in.h>
#include <netinet/tcp.h>
#include <stdio.h>
#include <stdlib.h>
#include <string.h>
#include <sys/socket.h>
#include <unistd.h>

#define STACK 20000
#define BLIND 100

/* The betting of a hand: whose turn it is, none where the hand is over, what each has put in, and the least raise. */
struct betting {
    int turn, spent[2], most, least;
};

static int dial(const char *host, const char *port)
{
    struct addrinfo hints = {.ai_socktype = SOCK_STREAM}, *found;
    if (getaddrinfo(host, port, &hints, &found) != 0)
        return -1;
    int at = socket(found->ai_family, found->ai_socktype, 0), one = 1;
    if (at < 0 || connect(at, found->ai_addr, found->ai_addrlen) != 0)
        return -1;
    setsockopt(at, IPPROTO_TCP, TCP_NODELAY, &one, sizeof one);
    return at;
}

/* The betting that a line's betting text shows, up to its colon. */
static struct betting betting_of(const char *text)
{
    struct betting now = {1, {BLIND, BLIND / 2}, BLIND, 2 * BLIND};
    int round = 0, actions = 0;
    for (; *text && *text != ':'; text++) {
        if (*text == '/')
            continue;
        if (*text == 'f') {
            now.turn = -1;
            return now;
        }
        actions++;
        if (*text == 'r') {
            char *behind;
            int amount = strtol(text + 1, &behind, 10);
            text = behind - 1;
            if (2 * amount - now.most > now.least)
                now.least = 2 * amount - now.most;
            now.most = now.spent[now.turn] = amount;
        } else {
            now.spent[now.turn] = now.most;
        }
        now.turn = 1 - now.turn;
        if (actions > 1 && now.spent[0] == now.spent[1] && text[0] == 'c') {
            round++;
            actions = 0;
            now.turn = 0;
            now.least = now.most + BLIND;
            if (round == 4 || now.most >= STACK) {
                now.turn = -1;
                return now;
            }
        }
    }
    return now;
}

static unsigned long number_of(unsigned long seed, const char *line)
{
    unsigned long number = 14695981039346656037UL ^ seed;
    for (; *line; line++)
        number = (number ^ (unsigned char)*line) * 1099511628211UL;
    return number >> 20;
}

int main(int count, char **words)
{
    char line[8192];
    int at = count == 5 || count == 6 ? dial(words[2], words[3]) : -1;
    FILE *record = at < 0 ? NULL : fopen(words[4], "wb");
    if (record == NULL)
        return 2;
    FILE *in = fdopen(at, "r"), *out = fdopen(dup(at), "w");
    fprintf(out, "VERSION:2.0.0\r\n");
    fflush(out);
    while (fgets(line, sizeof line, in)) {
        int position, hand, text = 0;
        fputs(line, record);
        fflush(record);
        line[strcspn(line, "\r\n")] = 0;
        if (sscanf(line, "MATCHSTATE:%d:%d:%n", &position, &hand, &text) != 2 || text == 0)
            return 1;
        struct betting now = betting_of(line + text);
        if (now.turn != position)
            continue;
        if (count == 6)
            usleep(atol(words[5]));
        unsigned long number = number_of(strtoul(words[1], 0, 10), line);
        if (number % 8 == 0 && now.spent[position] < now.most)
            fprintf(out, "%s:f\r\n", line);
        else if (number % 8 < 3 && now.most < STACK)
            fprintf(out, "%s:r%d\r\n", line, now.least < STACK ? now.least : STACK);
        else
            fprintf(out, "%s:c\r\n", line);
        fflush(out);
    }
    return 0;
}
