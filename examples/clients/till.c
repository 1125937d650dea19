/* A till that sells one delivery at a point where no other till sells, as till.py does, in C.
 *
 *     cc -O2 -o till till.c
 *     ./till PORT|PATH TILL POINT CENTS     a port of 127.0.0.1, or the path of a local socket; CENTS is the amount that
 *                                           is asked for
 *
 * The status is 1 where a line is refused, or the site can't be reached for ten seconds, and 2 for wrong arguments; it
 * is 0 also where the customer hangs up without fuel. */
#include <arpa/inet.h>
#include <stdarg.h>
#include <stdio.h>
#include <stdlib.h>
#include <string.h>
#include <sys/socket.h>
#include <sys/un.h>
#include <unistd.h>

enum { CLOSED = 2, IDLE = 3, CALLING = 4, AUTHORISED = 5 };
enum { TRIES = 50, PAUSE = 200000 }; /* microseconds between two tries, and between two looks */

static const char *where;
static int day;
static int connection = -1;
static char answer[4096]; /* the last answer, without its LF */

static int connected(void)
{
    struct sockaddr_in port = {.sin_family = AF_INET, .sin_addr.s_addr = htonl(INADDR_LOOPBACK)};
    struct sockaddr_un path = {.sun_family = AF_UNIX};
    struct timeval patience = {.tv_sec = 10};
    int is_port = strspn(where, "0123456789") == strlen(where);
    int made = socket(is_port ? AF_INET : AF_UNIX, SOCK_STREAM, 0);
    const struct sockaddr *address = is_port ? (struct sockaddr *)&port : (struct sockaddr *)&path;

    port.sin_port = htons((unsigned short)atoi(where));
    strncpy(path.sun_path, where, sizeof path.sun_path - 1);
    setsockopt(made, SOL_SOCKET, SO_RCVTIMEO, &patience, sizeof patience);
    if (connect(made, address, is_port ? sizeof port : sizeof path) == 0)
        return made;
    close(made);
    return -1;
}

/* Sends a line and reads its answer. Returns what follows the number of entries, or NULL where no answer came. */
static const char *ask(const char *format, ...)
{
    char line[256];
    va_list values;
    size_t length, got = 0;

    va_start(values, format);
    length = (size_t)vsnprintf(line, sizeof line - 1, format, values);
    va_end(values);
    line[length++] = '\n';
    if (send(connection, line, length, MSG_NOSIGNAL) != (ssize_t)length)
        return NULL;
    while (got < sizeof answer - 1 && read(connection, answer + got, 1) == 1) {
        if (answer[got] == '\n') {
            answer[got] = 0;
            length = strspn(answer, "0123456789");
            return length && answer[length] == ' ' ? answer + length + 1 : answer;
        }
        got++;
    }
    return NULL;
}

/* Connects, and connects again for ten seconds. Tells it when a new day has begun. */
static void reach(void)
{
    for (int tries = 0; tries < TRIES; tries++) {
        const char *said;
        int today;

        if (connection >= 0)
            close(connection);
        connection = connected();
        said = connection < 0 ? NULL : ask("look day");
        if (said && sscanf(said, "day %d", &today) == 1) {
            if (day && day != today)
                printf("day %d has begun: entries count from 1 again\n", today);
            day = today;
            return;
        }
        usleep(PAUSE);
    }
    fprintf(stderr, "no connection to %s\n", where);
    exit(1);
}

/* A look enters nothing, so one that was lost is sent again. */
static const char *look(const char *what, int point)
{
    const char *said = ask("look %s %d", what, point);

    while (!said) {
        reach();
        said = ask("look %s %d", what, point);
    }
    return said;
}

static int state_of(int point)
{
    const char *said = look("point", point);
    int state;

    if (sscanf(said, "point %d", &state) == 1)
        return state;
    fprintf(stderr, "point %d: %s\n", point, said);
    exit(1);
}

/* The transaction of a point that is unpaid and above `last`: its row behind the point's number, or NULL. */
static const char *unpaid_above(int point, int last, int *number)
{
    const char *row = look("unpaid", point);

    while ((row = strchr(row, ' ')) != NULL) {
        if (sscanf(++row, "%*d %d", number) == 1 && *number > last)
            return row;
        row = strchr(row, ';');
        if (!row++)
            return NULL;
    }
    return NULL;
}

/* Sends a line of transaction `number`. A lost answer to it is looked up: a transaction that is gone was cleared. */
static int settles(const char *verb, int till, int point, int number)
{
    const char *said = ask("till %d %s %d %d", till, verb, point, number);

    while (!said) {
        int left;

        reach();
        if (!unpaid_above(point, number - 1, &left) || left != number)
            return 1;
        said = ask("till %d %s %d %d", till, verb, point, number);
    }
    if (strcmp(said, "done") != 0)
        printf("point %d: transaction %d is left: %s\n", point, number, said);
    return strcmp(said, "done") == 0;
}

/* Opens the point, unless it is open. The line is sent again where its answer is lost and the point is still closed. */
static void open_point(int till, int point)
{
    while (state_of(point) == CLOSED) {
        const char *said = ask("till %d open %d", till, point);

        if (!said) {
            reach();
            continue;
        }
        printf("point %d: open %s\n", point, said);
        if (strcmp(said, "done") != 0)
            exit(1);
    }
}

static int is_number(const char *word)
{
    return *word >= '1' && *word <= '9' && strlen(word) < 10 && strspn(word, "0123456789") == strlen(word);
}

int main(int count, char **words)
{
    int till, point, cents, number, last = 0;
    unsigned product, price, volume, amount;
    const char *said;

    if (count != 5 || strlen(words[1]) > 100
        || !is_number(words[2]) || !is_number(words[3]) || !is_number(words[4]))
        return fprintf(stderr, "usage: till PORT|PATH TILL POINT CENTS\n"), 2;
    where = words[1], till = atoi(words[2]), point = atoi(words[3]), cents = atoi(words[4]);
    setvbuf(stdout, NULL, _IOLBF, 0);
    reach();
    while (unpaid_above(point, last, &number))
        printf("point %d: transaction %d was left unpaid\n", point, last = number);
    open_point(till, point);
    while (state_of(point) != CALLING)
        usleep(PAUSE);
    said = ask("till %d release %d %d", till, point, cents);
    if (!said) {
        reach(); /* it was done if the point is busy, or has sold already */
        said = state_of(point) >= AUTHORISED || unpaid_above(point, last, &number)
            ? "granted" : ask("till %d release %d %d", till, point, cents);
    }
    printf("point %d: release %s\n", point, said ? said : "has no answer");
    if (!said || strncmp(said, "granted", 7) != 0)
        return 1;
    while (state_of(point) >= AUTHORISED)
        usleep(PAUSE);
    said = unpaid_above(point, last, &number);
    if (!said)
        return 0;
    sscanf(said, "%*d %*d %u %u %u %u", &product, &price, &volume, &amount);
    if (!settles("lock", till, point, number) || !settles("clear", till, point, number))
        return 1;
    printf("point %d: product %u, %u.%02u litres at %u.%03u: %u cents paid\n", point, product, volume / 100, volume % 100,
           price / 1000, price % 1000, amount);
    return 0;
}
