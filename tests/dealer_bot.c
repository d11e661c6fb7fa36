/* A bot as the competition has them, for no-limit hold'em of two with reversed blinds: dealer_bot SEED HOST PORT. It dials
   once, acts by SEED and the line alone, and ends by 0 with the connection. Its raises are of any amount: the dealer
   mends those outside the range. */
#include <netdb.h>
#include <stdio.h>
#include <stdlib.h>
#include <string.h>
#include <sys/socket.h>
#include <unistd.h>

static int dial(const char *host, const char *port)
{
    struct addrinfo hints = {.ai_socktype = SOCK_STREAM}, *found;
    if (getaddrinfo(host, port, &hints, &found) != 0)
        return -1;
    int at = socket(found->ai_family, found->ai_socktype, 0);
    return at >= 0 && connect(at, found->ai_addr, found->ai_addrlen) == 0 ? at : -1;
}

/* Whether the position of a line is to act: position 1 begins the first round, position 0 the others. A hand that is over
   ends with a fold, or shows both hands of cards. */
static int is_to_act(const char *line)
{
    int position, hand, at = 0;
    if (sscanf(line, "MATCHSTATE:%d:%d:%n", &position, &hand, &at) != 2)
        return 0;
    int round = 0, actions = 0;
    char last = 0;
    const char *text = line + at;
    for (; *text && *text != ':'; text++) {
        if (*text == '/')
            round++, actions = 0;
        else if (*text == 'f' || *text == 'c' || *text == 'r')
            actions++, last = *text;
    }
    size_t holes = strcspn(++text, "/\r");
    return last != 'f' && holes < 9 && (actions + (round == 0)) % 2 == position;
}

static unsigned long number_of(unsigned long seed, const char *line)
{
    unsigned long number = 14695981039346656037UL ^ seed;
    for (; *line; line++)
        number = (number ^ (unsigned char)*line) * 1099511628211UL;
    return number >> 20;
}

int main(int count, char **words)
{
    char line[8192];
    int at = count == 4 ? dial(words[2], words[3]) : -1;
    if (at < 0)
        return 2;
    FILE *in = fdopen(at, "r"), *out = fdopen(dup(at), "w");
    fprintf(out, "VERSION:2.0.0\r\n");
    fflush(out);
    while (fgets(line, sizeof line, in)) {
        line[strcspn(line, "\r\n")] = 0;
        if (!is_to_act(line))
            continue;
        unsigned long number = number_of(strtoul(words[1], 0, 10), line);
        if (number % 8 == 0)
            fprintf(out, "%s:f\r\n", line);
        else if (number % 8 < 3)
            fprintf(out, "%s:r%lu\r\n", line, number / 8 % (number % 5 ? 900 : 30000));
        else
            fprintf(out, "%s:c\r\n", line);
        fflush(out);
    }
    return 0;
}
