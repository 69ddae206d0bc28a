"""How tools/check runs the check `export`, and what is wrong that this has to find."""
from kinds import Kind, Wrong

# A program that changes a byte of each text that it exports.
OTHER_PIXEL = """if (words[1] && !strcmp(words[1], "export")) {
        int status;
        if (!fork()) execv(REAL, words);
        wait(&status);
        int file = open(words[5], O_RDWR);
        off_t last = lseek(file, -1, SEEK_END);
        char byte;
        pread(file, &byte, 1, last);
        byte ^= 1;
        pwrite(file, &byte, 1, last);
        return WEXITSTATUS(status);
    }"""

KIND = Kind(
    "export_check",
    [],
    [],
    ["LOOP_CLI"],
    (
        "ffmpeg and mjpegtools read what is exported (it installs them from Debian where they"
        " are missing)"
    ),
    [Wrong("a program that exports another pixel", {"LOOP_CLI": OTHER_PIXEL}, says="is wrong")],
)
