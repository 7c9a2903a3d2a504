/* Folders in which something else stands under the name of a table file, and empty folders:
 * folders FILE, which is that of Grid 3-3 by classes. A call that waits is killed. */
#define _XOPEN_SOURCE 700
#include "check.h"
#include "morris_folder.h"

#include <errno.h>
#include <fcntl.h>
#include <signal.h>
#include <stdio.h>
#include <stdlib.h>
#include <string.h>
#include <sys/socket.h>
#include <sys/stat.h>
#include <sys/un.h>
#include <sys/wait.h>
#include <time.h>
#include <unistd.h>

/* No folder takes so many seconds to open. */
enum { MOST_SECONDS = 10 };
/* A folder, and names in it of two table files. */
#define IN "folder"
#define NAME IN "/grid-3-3.nmmt"
#define LATER IN "/grid-4-3.nmmt"

static int32_t look(const morris_folder *t, uint32_t own) {
    morris_value value;
    return morris_lookup(MORRIS_GRID, t->files, t->n, t->words, t->m, own, 0x038, &value);
}

/* An empty folder may be handed in and closed, as often as one likes. */
static void is_empty(morris_folder *t) {
    static morris_move moves[MORRIS_MOST_MOVES];
    size_t count;
    int i;
    for (i = 0; i < 3; i++) {
        IS(t->n, 0);
        IS(t->m, 0);
        IS(t->words != NULL, 1);
        if (t->words != NULL) {
            IS(look(t, 0x007), MORRIS_NO_TABLE);
            IS(look(t, 0x003), MORRIS_OK);
            IS(morris_moves(MORRIS_GRID, t->files, t->n, t->words, t->m, 0x007, 0x038, moves,
                            MORRIS_MOST_MOVES, &count),
               MORRIS_NO_TABLE);
            IS(morris_prepare(MORRIS_GRID, t->words, t->m), MORRIS_ROOM);
        }
        morris_close_folder(t);
    }
}

/* The number that the next file gets which is opened. */
static int next_file(void) {
    int it = dup(0);
    close(it);
    return it;
}

static int32_t open_in_time(const char *path, uint32_t board, morris_folder *t) {
    int32_t status;
    memset(t, 0x77, sizeof *t);
    errno = 0;
    alarm(MOST_SECONDS);
    status = morris_open_folder(path, board, t);
    alarm(0);
    return status;
}

/* A folder that isn't opened, and why not. */
static void refused(const char *path, uint32_t board, int32_t status, int why) {
    morris_folder t;
    int before = next_file();
    IS(open_in_time(path, board, &t), status);
    if (status == MORRIS_SYSTEM) {
        IS(errno, why);
    }
    IS(next_file(), before);
    is_empty(&t);
}

/* What stands under the name of a table file is no file, and is taken away. */
static void is_no_file(const char *what) {
    printf("%s, ", what);
    refused(IN, MORRIS_GRID, MORRIS_SYSTEM, EINVAL);
    IS(remove(NAME), 0);
}

/* The folder can be opened, and one file is in it, which gives a value or not. */
static void is_file(const char *what, int32_t status) {
    morris_folder t;
    int before = next_file();
    printf("%s, ", what);
    IS(open_in_time(IN, MORRIS_GRID, &t), MORRIS_OK);
    IS(next_file(), before);
    IS(t.n, 1);
    IS(look(&t, 0x007), status);
    morris_close_folder(&t);
    is_empty(&t);
    IS(remove(NAME), 0);
}

static void bind_socket(void) {
    struct sockaddr_un name = {0};
    int it = socket(AF_UNIX, SOCK_STREAM, 0);
    name.sun_family = AF_UNIX;
    strcpy(name.sun_path, NAME);
    IS(bind(it, (struct sockaddr *)&name, sizeof name), 0);
    close(it);
}

static void write_text(const char *name, const char *text) {
    FILE *it = fopen(name, "w");
    IS(it != NULL && fputs(text, it) >= 0 && fclose(it) == 0, 1);
}

static void what_is_no_file(void) {
    IS(mkfifo(NAME, 0600), 0);
    is_no_file("a FIFO");
    IS(mkfifo("fifo", 0600), 0);
    IS(symlink("../fifo", NAME), 0);
    is_no_file("a link to a FIFO");
    IS(mkdir(NAME, 0700), 0);
    is_no_file("a folder");
    IS(symlink("..", NAME), 0);
    is_no_file("a link to a folder");
    IS(symlink("/dev/zero", NAME), 0);
    is_no_file("a link to a device");
    bind_socket();
    is_no_file("a socket");
    IS(remove("fifo"), 0);
}

static void wait_a_little(void) {
    struct timespec time = {0, 50000000};
    nanosleep(&time, NULL);
}

/* A FIFO isn't opened: who waits for a reader waits on. */
static void writer_waits(void) {
    pid_t writer;
    IS(mkfifo(NAME, 0600), 0);
    writer = fork();
    if (writer == 0) {
        alarm(MOST_SECONDS);
        _exit(open(NAME, O_WRONLY) < 0);
    }
    wait_a_little();
    refused(IN, MORRIS_GRID, MORRIS_SYSTEM, EINVAL);
    wait_a_little();
    IS(waitpid(writer, NULL, WNOHANG), 0);
    kill(writer, SIGKILL);
    waitpid(writer, NULL, 0);
    IS(remove(NAME), 0);
}

/* Somebody puts a FIFO in the place of a file, and a file in its place, again and again. */
static void swapped_meanwhile(const char *file) {
    pid_t swapper;
    int i;
    IS(mkfifo("fifo", 0600) + symlink(file, NAME), 0);
    swapper = fork();
    if (swapper == 0) {
        alarm(MOST_SECONDS);
    }
    while (swapper == 0) {
        int failed = symlink("../fifo", "new") + rename("new", NAME);
        if (failed + symlink(file, "new") + rename("new", NAME) != 0) {
            _exit(1);
        }
    }
    for (i = 0; i < 10000; i++) {
        morris_folder t;
        if (open_in_time(IN, MORRIS_GRID, &t) == MORRIS_OK) {
            IS(look(&t, 0x007), MORRIS_OK);
        } else {
            IS(errno, EINVAL);
        }
        morris_close_folder(&t);
    }
    kill(swapper, SIGKILL);
    waitpid(swapper, NULL, 0);
    remove("new"); /* which may be there */
    IS(remove("fifo") + remove(NAME), 0);
}

static void what_is_one(const char *file) {
    IS(symlink(file, NAME), 0);
    is_file("a link to a file", MORRIS_OK);
    IS(symlink("link", NAME), 0);
    IS(symlink(file, IN "/link"), 0);
    is_file("a link to a link", MORRIS_OK);
    write_text(NAME, "");
    is_file("an empty file", MORRIS_NO_TABLE);
    write_text(NAME, "no table, but long enough to have a header");
    is_file("a text", MORRIS_NO_TABLE);
    IS(symlink("nowhere", NAME), 0);
    refused(IN, MORRIS_GRID, MORRIS_NO_TABLE, 0);
    /* What was mapped before is given back. */
    IS(remove(NAME) + symlink(file, NAME) + mkfifo(LATER, 0600), 0);
    refused(IN, MORRIS_GRID, MORRIS_SYSTEM, EINVAL);
    IS(remove(LATER), 0);
}

static void paths(void) {
    static char long_path[5000];
    morris_folder none = {0};
    memset(long_path, 'x', sizeof long_path - 1);
    refused(long_path, MORRIS_GRID, MORRIS_SYSTEM, ENAMETOOLONG);
    refused("", MORRIS_GRID, MORRIS_SYSTEM, ENOENT);
    refused(NAME, MORRIS_GRID, MORRIS_SYSTEM, ENOTDIR);
    refused("nowhere", MORRIS_GRID, MORRIS_NO_TABLE, 0);
    refused(IN, MORRIS_NINE, MORRIS_NO_TABLE, 0);
    refused(IN, 7, MORRIS_NO_BOARD, 0);
    morris_close_folder(&none);
    is_empty(&none);
}

int main(int argc, char **argv) {
    char room[] = "/tmp/morris-folders-XXXXXX", *file = argc == 2 ? realpath(argv[1], NULL) : NULL;
    setvbuf(stdout, NULL, _IONBF, 0); /* what a killed call was about is printed */
    if (file == NULL || mkdtemp(room) == NULL || chdir(room) != 0 || mkdir(IN, 0700) != 0) {
        return 2;
    }
    what_is_no_file();
    writer_waits();
    swapped_meanwhile(file);
    what_is_one(file);
    paths();
    IS(remove(NAME) + remove(IN "/link") + remove(IN) + chdir("/") + remove(room), 0);
    free(file);
    return end();
}
