/* SPDX-License-Identifier: MIT
 *
 * splicelog: runs the proved program of crates/console, which has no exit status, and says by its own how that went. Where a file is named, it
 * opens the old image and the new one, hands both over by descriptor, and puts the new one in the place of the old one in one step.
 * Relies on Linux with /proc, since the program opens the descriptors by their names in /dev/fd, and on the program: PROGRAM, or the one that the
 * environment's SPLICELOG_PROGRAM names.
 */
#define _GNU_SOURCE
#include "splicelog.h"

#include <errno.h>
#include <fcntl.h>
#include <limits.h>
#include <signal.h>
#include <stdarg.h>
#include <stdio.h>
#include <stdlib.h>
#include <string.h>
#include <sys/prctl.h>
#include <sys/stat.h>
#include <sys/wait.h>
#include <time.h>
#include <unistd.h>

#ifndef PROGRAM
#define PROGRAM "/usr/local/libexec/splicelog/console"
#endif

enum { DONE = 3, NEW, OLD, FIRST_FREE }; /* the program's descriptors, as crates/console/src/files.rt has them */
enum { MOST_LINKS = 40 };                /* as many symbolic links as Linux follows */

struct image {
    char *name;          /* as it was given */
    char path[PATH_MAX]; /* behind all links */
    int folder;          /* where it lies; its name there, and the new file's */
    const char *leaf;
    char new_leaf[PATH_MAX + sizeof ".new"];
    int old_file;        /* -1 where there is none */
    int new_file;
    mode_t mode;         /* the new file's, when it is saved */
};

static const char usage[] = "usage: splicelog [IMAGE] < LINES\n"
                            "       splicelog --help\n"
                            "       splicelog --version\n"
                            "\n"
                            "Reads lines and prints an answer to each: put PATH HEX, drop PATH, clear PATH,\n"
                            "get PATH, list PATH, move PATH PATH, settle, tidy; clear / wipes the store, and\n"
                            "list / prints all of it. Without IMAGE the store is empty at the start and gone at\n"
                            "the end. With the name of a file, an image that is there is gone on with, and the\n"
                            "image at the end takes its place in one step; where there is none, the file is new.\n"
                            "Put -- before a name that begins with a hyphen.\n"
                            "\n"
                            "Exit status: 0 all lines were answered, and with IMAGE the file has their outcome;\n"
                            "1 not all of them were, or the file is as it was: it has no sound image of 64\n"
                            "nodes, or something failed; 2 wrong usage.\n";

static int print(const char *text) {
    if (fputs(text, stdout) >= 0 && fflush(stdout) == 0)
        return 0;
    fprintf(stderr, "splicelog: standard output: %s\n", strerror(errno));
    return 1;
}

static int refuse_usage(const char *what, const char *word) {
    fprintf(stderr, "splicelog: %s%s; splicelog --help tells more\n", what, word);
    return 2;
}

/* Tells that a run failed, on which image (NULL: on none), and why (NULL: the program has told it). */
__attribute__((format(printf, 2, 3))) static int fail(const struct image *image, const char *why, ...) {
    va_list words;
    if (image)
        fprintf(stderr, "splicelog: %s: not saved; it is as it was", image->name);
    else
        fputs("splicelog: not all of the input was read, or not every answer printed", stderr);
    if (why) {
        fputs(": ", stderr);
        va_start(words, why);
        vfprintf(stderr, why, words);
        va_end(words);
    }
    fputs("\n", stderr);
    return 1;
}

/* Sees to it that no file gets a number that the program uses: a descriptor that is closed is held by one that neither reads nor prints. */
static int hold_descriptors(void) {
    for (int number = 0; number < FIRST_FREE; number++)
        if (fcntl(number, F_GETFD) < 0 && open("/dev/null", number == STDIN_FILENO ? O_WRONLY : O_RDONLY) < 0)
            return -1;
    return 0;
}

/* Puts what a link says in the place of the link, the last component of the path. */
static int replace_link(char *path, const char *target) {
    char followed[PATH_MAX];
    const char *slash = strrchr(path, '/');
    int kept = slash && target[0] != '/' ? (int)(slash - path) + 1 : 0;
    int length = snprintf(followed, sizeof followed, "%.*s%s", kept, path, target);
    if (length < 0 || (size_t)length >= sizeof followed) {
        errno = ENAMETOOLONG;
        return -1;
    }
    memcpy(path, followed, (size_t)length + 1);
    return 0;
}

/* Makes the path one whose last component is no link; there may be no such file. The folders before it the system follows by itself. */
static int follow_links(char *path) {
    for (int links = 0; links <= MOST_LINKS; links++) {
        char target[PATH_MAX];
        ssize_t length = readlink(path, target, sizeof target - 1);
        if (length < 0)
            return errno == EINVAL || errno == ENOENT ? 0 : -1;
        target[length] = '\0';
        if (replace_link(path, target) != 0)
            return -1;
    }
    errno = ELOOP;
    return -1;
}

/* Opens the folder, which stays the same one where it is renamed later. */
static int open_folder(const char *path, const char *leaf) {
    char folder[PATH_MAX];
    if (leaf == path)
        return open(".", O_PATH | O_DIRECTORY | O_CLOEXEC);
    memcpy(folder, path, (size_t)(leaf - path));
    folder[leaf - path] = '\0';
    return open(folder, O_PATH | O_DIRECTORY | O_CLOEXEC);
}

/* Finds where the image lies or will lie. What is there and no regular file is not even opened. */
static int find_image(struct image *image) {
    struct stat about;
    const char *slash;
    if (stat(image->name, &about) == 0 && !S_ISREG(about.st_mode))
        return fail(image, "not a regular file");
    if (strlen(image->name) >= sizeof image->path)
        return fail(image, "%s", strerror(ENAMETOOLONG));
    strcpy(image->path, image->name);
    if (follow_links(image->path) != 0)
        return fail(image, "%s", strerror(errno));
    slash = strrchr(image->path, '/');
    image->leaf = slash ? slash + 1 : image->path;
    if (image->leaf[0] == '\0')
        return fail(image, "a name with a slash at its end is no regular file's");
    snprintf(image->new_leaf, sizeof image->new_leaf, "%s.new", image->leaf);
    image->folder = open_folder(image->path, image->leaf);
    return image->folder < 0 ? fail(image, "its folder: %s", strerror(errno)) : 0;
}

/* Opens the old image, if there is one. The program only reads it; that it may be written is asked since it is to be replaced. */
static int open_old(struct image *image) {
    image->old_file = -1;
    if (faccessat(image->folder, image->leaf, R_OK | W_OK, AT_EACCESS) != 0)
        return errno == ENOENT ? 0 : fail(image, "no permission to read and write it: %s", strerror(errno));
    image->old_file = openat(image->folder, image->leaf, O_RDONLY | O_NONBLOCK | O_NOFOLLOW | O_CLOEXEC);
    return image->old_file < 0 ? fail(image, "%s", strerror(errno)) : 0;
}

/* Does this name lead to the very file that is open? */
static int leads_to(int folder, const char *leaf, int file) {
    struct stat named, opened;
    return fstatat(folder, leaf, &named, AT_SYMLINK_NOFOLLOW) == 0 && fstat(file, &opened) == 0 && named.st_dev == opened.st_dev &&
           named.st_ino == opened.st_ino;
}

/* Is the old image still the one that was opened, or still none? */
static int is_old_in_place(const struct image *image) {
    struct stat named;
    if (image->old_file >= 0)
        return leads_to(image->folder, image->leaf, image->old_file);
    return fstatat(image->folder, image->leaf, &named, AT_SYMLINK_NOFOLLOW) != 0 && errno == ENOENT;
}

/* Does a run hold the new file that is there? -1 with errno where that cannot be told. Asking takes no lock. */
static int is_held(const struct image *image) {
    struct flock lock = {.l_type = F_WRLCK, .l_whence = SEEK_SET};
    int file = openat(image->folder, image->new_leaf, O_RDONLY | O_NONBLOCK | O_NOFOLLOW | O_CLOEXEC);
    int asked;
    if (file < 0)
        return errno == ENOENT ? 1 : errno == ELOOP ? 0 : -1; /* a run has just ended; a link, which no run makes */
    asked = fcntl(file, F_OFD_GETLK, &lock);
    close(file);
    return asked != 0 ? -1 : lock.l_type != F_UNLCK;
}

/* Tells whose the new file is that is there already. A run locks its file just after it made it: so one without a lock is looked at again. */
static int tell_taken(const struct image *image) {
    static const struct timespec moment = {.tv_nsec = 10000000};
    int held = is_held(image);
    for (int looks = 0; held == 0 && looks < 10; looks++) {
        nanosleep(&moment, NULL);
        held = is_held(image);
    }
    if (held > 0)
        return fail(image, "another run is on this image");
    if (held < 0)
        return fail(image, "%s.new is there, and whether a run holds it cannot be told: %s", image->path, strerror(errno));
    return fail(image, "%s.new is there, and no run holds it: a run that was killed left it, or it is a file of yours. Remove or rename it",
                image->path);
}

/* Gives the new file the old one's owner, where that is allowed, and mode. */
static int copy_mode(const struct image *image) {
    struct stat old;
    if (image->old_file < 0)
        return 0;
    if (fstat(image->old_file, &old) != 0)
        return -1;
    /* Where neither is allowed, it stays the caller's own. */
    (void)(fchown(image->new_file, old.st_uid, old.st_gid) == 0 || fchown(image->new_file, (uid_t)-1, old.st_gid) == 0);
    return fchmod(image->new_file, old.st_mode & 07777);
}

/* Lets the program open the new file for writing, which it does by its name in /dev/fd, while it runs: some modes deny that to the owner. */
static int allow_writing(struct image *image) {
    struct stat made;
    if (fstat(image->new_file, &made) != 0)
        return -1;
    image->mode = made.st_mode & 07777;
    return image->mode & S_IWUSR ? 0 : fchmod(image->new_file, image->mode | S_IWUSR);
}

/* Takes that back. */
static int restore_mode(const struct image *image) {
    return image->mode & S_IWUSR ? 0 : fchmod(image->new_file, image->mode);
}

/* Removes the new file, if its name still leads to it. */
static int discard_new(const struct image *image) {
    if (leads_to(image->folder, image->new_leaf, image->new_file))
        unlinkat(image->folder, image->new_leaf, 0);
    return 1;
}

/* Makes the new file, which nobody else may have made: so two runs never work on one image. Its lock, which the program inherits, only tells
 * others that a run holds it, so a file system without locks will do. Whoever replaced the old image before this was a run too. */
static int make_new(struct image *image) {
    struct flock lock = {.l_type = F_WRLCK, .l_whence = SEEK_SET};
    mode_t mode = image->old_file < 0 ? 0666 : 0600;
    image->new_file = openat(image->folder, image->new_leaf, O_WRONLY | O_CREAT | O_EXCL | O_CLOEXEC, mode);
    if (image->new_file < 0)
        return errno == EEXIST ? tell_taken(image) : fail(image, "%s.new cannot be made: %s", image->path, strerror(errno));
    (void)fcntl(image->new_file, F_OFD_SETLK, &lock);
    if (copy_mode(image) != 0 || allow_writing(image) != 0)
        fail(image, "the mode of %s.new: %s", image->path, strerror(errno));
    else if (!is_old_in_place(image))
        fail(image, "another run is on this image");
    else
        return 0;
    return discard_new(image);
}

/* Puts the new image in the place of the old one. */
static int save(const struct image *image) {
    int folder;
    if (!leads_to(image->folder, image->new_leaf, image->new_file))
        return fail(image, "%s.new is not the file that this run made", image->path);
    if (!is_old_in_place(image))
        return fail(image, "another program has put a file in its place, which stays");
    if (restore_mode(image) != 0)
        return fail(image, "the mode of %s.new: %s", image->path, strerror(errno));
    if (renameat(image->folder, image->new_leaf, image->folder, image->leaf) != 0)
        return fail(image, "%s", strerror(errno));
    /* The name goes to the disk too. Where the folder cannot be read or synchronised, it goes there later; the image is in place. */
    folder = openat(image->folder, ".", O_RDONLY | O_DIRECTORY | O_CLOEXEC);
    if (folder >= 0)
        fsync(folder);
    return 0;
}

/* Does this signal end a program that does not expect it? One that the caller ignores, as nohup does, stays ignored. */
static int ends_program(int number) {
    struct sigaction action;
    switch (number) {
    case SIGCHLD: case SIGCONT: case SIGTSTP: case SIGTTIN: case SIGTTOU: case SIGURG: case SIGWINCH:
        return 0;
    default:
        return sigaction(number, NULL, &action) == 0 && action.sa_handler != SIG_IGN;
    }
}

/* Blocks the signals that end a program, so that each waits until wait_for_end takes it. */
static void block_signals(sigset_t *ending, sigset_t *before) {
    signal(SIGCHLD, SIG_DFL);
    sigemptyset(ending);
    sigaddset(ending, SIGCHLD);
    for (int number = 1; number <= SIGRTMAX; number++)
        if (ends_program(number))
            sigaddset(ending, number);
    sigprocmask(SIG_BLOCK, ending, before);
}

/* Becomes the program, with its own descriptors and no other; comes back only where there is no program. */
static void become_program(const struct image *image, int done) {
    const char *given = getenv("SPLICELOG_PROGRAM");
    const char *program = given && given[0] ? given : PROGRAM;
    int has_old = image && image->old_file >= 0;
    char *words[] = {"splicelog", "done", image ? image->name : NULL, has_old ? image->name : NULL, NULL};
    dup2(done, DONE);
    if (image)
        dup2(image->new_file, NEW);
    if (has_old)
        dup2(image->old_file, OLD);
    close_range(has_old ? FIRST_FREE : image ? OLD : NEW, UINT_MAX, 0);
    execv(program, words);
    fprintf(stderr, "splicelog: the program %s: %s\n", program, strerror(errno));
}

/* Starts the program, which is killed where this process ends before it. */
static pid_t start_program(const struct image *image, int done, const sigset_t *before) {
    pid_t parent = getpid();
    pid_t child = fork();
    if (child != 0)
        return child;
    prctl(PR_SET_PDEATHSIG, SIGKILL);
    sigprocmask(SIG_SETMASK, before, NULL);
    if (getppid() == parent)
        become_program(image, done);
    _exit(1);
}

/* Waits until the program has ended: its status. A signal that is to end this process ends the program, and is told. */
static int wait_for_end(pid_t child, const sigset_t *ending, int *ended_by) {
    int status, number;
    for (;;) {
        if (sigwait(ending, &number) != 0)
            continue;
        if (number != SIGCHLD) {
            *ended_by = number;
            kill(child, SIGKILL);
        } else if (waitpid(child, &status, WNOHANG) == child) {
            return status;
        }
    }
}

/* Runs the program on standard input: 0 where it has said that all is done. The signals are blocked. */
static int run_program(const struct image *image, const sigset_t *ending, const sigset_t *before) {
    int done[2], status, ended_by = 0;
    pid_t child;
    char byte;
    if (pipe2(done, O_CLOEXEC | O_NONBLOCK) != 0 || (child = start_program(image, done[1], before)) < 0)
        return fail(image, "the program cannot be started: %s", strerror(errno));
    close(done[1]);
    status = wait_for_end(child, ending, &ended_by);
    if (ended_by)
        return fail(image, "a signal came: %s", strsignal(ended_by));
    if (WIFSIGNALED(status))
        return fail(image, "a signal ended the program: %s", strsignal(WTERMSIG(status)));
    return WEXITSTATUS(status) == 0 && read(done[0], &byte, 1) == 1 ? 0 : fail(image, NULL);
}

/* Runs the program on the image of this name (NULL: on none): the exit status. */
static int run(char *name) {
    struct image image = {.name = name};
    sigset_t ending, before;
    if (name && (find_image(&image) != 0 || open_old(&image) != 0))
        return 1;
    block_signals(&ending, &before);
    if (!name)
        return run_program(NULL, &ending, &before);
    if (make_new(&image) != 0)
        return 1;
    if (run_program(&image, &ending, &before) == 0 && save(&image) == 0)
        return 0;
    return discard_new(&image);
}

int main(int argc, char **argv) {
    const char *word = argc > 1 ? argv[1] : "";
    int first = strcmp(word, "--") == 0 ? 2 : 1;
    if (hold_descriptors() != 0)
        return fail(NULL, "/dev/null: %s", strerror(errno));
    if (strcmp(word, "--help") == 0)
        return print(usage);
    if (strcmp(word, "--version") == 0)
        return print("splicelog " SPLICELOG_VERSION "\n");
    if (first == 1 && word[0] == '-')
        return refuse_usage("no option ", word);
    if (argc - first > 1)
        return refuse_usage("one IMAGE, not more", "");
    if (argc - first == 1 && argv[first][0] == '\0')
        return refuse_usage("an empty name", "");
    return run(argc - first == 1 ? argv[first] : NULL);
}
