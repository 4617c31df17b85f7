/* Does for `drive` what it can't do: opens a target, writes and reads it, keeps the state, has the
 * power cut. docs/DRIVE.md is the manual. */
#include "commands.h"

#include "cpu.h"
#include "say.h"
#include "words.h"

#include <signal.h>

int main(int count, char **words) {
    speak_as("drive-target");
    const struct options options = read_options(count, words);
    signal(SIGPIPE, SIG_IGN);
    if (options.cpu) stay_on(number_of("--cpu", options.cpu));
    struct job job = read_job(options.job_file, options.job);
    job.unit = options.unit;
    return options.command == WRITE ? write_target(&options, &job) : check_target(&options, &job);
}
