#!/usr/bin/env python3
# SPDX-License-Identifier: MIT OR Apache-2.0
"""many.py COMMAND WORD [--jobs N] --out FOLDER [OPTION..] FILE..: a word of the command for many files, N at a time (else as many as there are processors).

FOLDER gets for each file what is printed of it, NAME.WORD for NAME.txt, whole or not at all, and NAME.WORD.said with what is said of it, if anything is. On a
terminal a line tells how far it is. In the end a summary. Exit status: 0 all were accepted, 1 some were refused (or, of member, are none), 2 used wrongly, or
some could not be run."""
import concurrent.futures
import os
import re
import signal
import subprocess
import sys
import threading
import time

USED_WRONGLY, NO_MEMBER, LAST_STATUS, ENDED_BY = 2, 6, 7, 128
# how a page is called by its form, and its options that have a value
FORMS, WITH_VALUE = {"--text": ".txt", "--json": ".json"}, ("--names", "--title", "--paper")


def wrong(*words):
    print("tagetessash:", *words, file=sys.stderr)
    sys.exit(USED_WRONGLY)


def taken_apart(words):
    """Jobs, folder, options of the word, files."""
    jobs, out, options, files, k = len(os.sched_getaffinity(0)), None, [], [], 0
    while k < len(words):
        word, _, value = words[k].partition("=")
        if word in ("--jobs", "--out"):
            if value == "":
                k += 1
                if k == len(words):
                    wrong("%s wants a %s" % (word, "number" if word == "--jobs" else "folder"))
                value = words[k]
            if word == "--out":
                out = value
            elif not re.fullmatch("[1-9][0-9]{0,3}", value):
                wrong("--jobs wants a number from 1 to 9999, not", value)
            else:
                jobs = int(value)
        elif words[k].startswith("--") and not os.path.exists(words[k]):
            options.append(words[k])
            if words[k] in WITH_VALUE and k + 1 < len(words):
                k += 1
                options.append(words[k])
        else:
            files.append(words[k])
        k += 1
    if out is None:
        wrong("--jobs wants --out FOLDER, a folder for what is printed")
    if not files:
        wrong("there is no file; --jobs and --out are for many")
    return jobs, out, options, files


class Many:
    """What is being done."""

    def __init__(self, command, word, options, folder):
        self.command, self.word, self.options, self.folder = command, word, options, folder
        self.lock, self.running, self.stopped = threading.Lock(), {}, False
        self.accepted, self.refused, self.not_members, self.failed = 0, {}, 0, []

    def one(self, file, name):
        """A file: its result in the folder."""
        path = os.path.join(self.folder, name)
        part, said = path + ".part-%d" % os.getpid(), path + ".said"
        try:
            with open(part, "wb") as out:
                with self.lock:
                    if self.stopped:
                        return
                    child = subprocess.Popen([self.command, self.word, *self.options, file], stdin=subprocess.DEVNULL, stdout=out, stderr=subprocess.PIPE)
                    self.running[child.pid] = child
                words = child.stderr.read()
                child.stderr.close()
                status = child.wait()
            with self.lock:
                del self.running[child.pid]
                if self.stopped:
                    return
            if status == USED_WRONGLY or not 0 <= status <= LAST_STATUS:
                raise OSError(words.decode("utf-8", "replace").strip().replace("tagetessash: ", "", 1) or "the command ended with status %d" % status)
            refusal = self.number(part, file) if status not in (0, NO_MEMBER) else None
            if words:
                with open(said, "wb") as out:
                    out.write(words)
            elif os.path.exists(said):
                os.remove(said)
            os.replace(part, path)
        except OSError as error:
            with self.lock:
                self.failed.append((file, str(error)))
            return
        finally:
            if os.path.exists(part):
                os.remove(part)
        with self.lock:
            if refusal:
                self.refused[refusal] = self.refused.get(refusal, 0) + 1
            elif status == NO_MEMBER:
                self.not_members += 1
            else:
                self.accepted += 1

    def number(self, part, file):
        """By which number it was refused: of an answer that has an X line; a page says it in words, and the sheet has the line."""
        if self.word == "page":
            sheet = [self.command, "sheet", file]
            printed = subprocess.run(sheet, stdin=subprocess.DEVNULL, stdout=subprocess.PIPE, stderr=subprocess.DEVNULL, check=False).stdout
        else:
            with open(part, "rb") as out:
                printed = out.read()
        found = re.search(rb"^X,(\d+),", printed, re.M)
        if not found:
            raise OSError("it was refused, and no X line says why")
        return int(found[1])

    def stop(self):
        with self.lock:
            self.stopped = True
            for child in self.running.values():
                child.terminate()

    def counts(self):
        words = ["%d accepted" % self.accepted]
        if self.not_members:
            words.append("%d no member" % self.not_members)
        if self.refused:
            numbers = ", ".join("%d by %d" % (count, number) for number, count in sorted(self.refused.items()))
            words.append("%d refused (%s)" % (sum(self.refused.values()), numbers))
        if self.failed:
            words.append("%d not run" % len(self.failed))
        return ", ".join(words)


def main():
    command, word, *words = sys.argv[1:]
    jobs, folder, options, files = taken_apart(words)
    ending = word + (next((FORMS[form] for form in options if form in FORMS), ".html") if word == "page" else "")
    names = {}
    for file in files:
        name = re.sub(r"\.txt$", "", os.path.basename(file)) + "." + ending
        if name in names:
            wrong("%s and %s would both be %s in %s" % (names[name], file, name, folder))
        names[name] = file
    try:
        os.makedirs(folder, exist_ok=True)
    except OSError as error:
        wrong("%s can not be made: %s" % (folder, error.strerror))
    if not os.access(folder, os.W_OK | os.X_OK):
        wrong(folder, "can not be written")
    began, many, heard = time.monotonic(), Many(command, word, options, folder), []

    def hear(number, _frame):
        heard.append(number)
        many.stop()
    for number in (signal.SIGHUP, signal.SIGINT, signal.SIGTERM):
        if signal.getsignal(number) != signal.SIG_IGN:
            signal.signal(number, hear)
    tells = sys.stderr.isatty()
    with concurrent.futures.ThreadPoolExecutor(jobs) as pool:
        waiting = {pool.submit(many.one, file, name) for name, file in names.items()}
        while waiting and not heard:
            done, waiting = concurrent.futures.wait(waiting, timeout=0.2, return_when=concurrent.futures.FIRST_COMPLETED)
            for future in done:
                future.result()
            if tells:
                line = "%d of %d: %s; %d s" % (len(files) - len(waiting), len(files), many.counts(), time.monotonic() - began)
                sys.stderr.write("\r\033[K" + line[:79])
                sys.stderr.flush()
        for future in waiting:
            future.cancel()
    if tells:
        sys.stderr.write("\r\033[K")
    if heard:
        return ENDED_BY + heard[0]
    for file, why in sorted(many.failed):
        print("tagetessash: %s: %s" % (file, why), file=sys.stderr)
    print("%d files: %s; %.1f s, %d at a time" % (len(files), many.counts(), time.monotonic() - began, jobs))
    return USED_WRONGLY if many.failed else 1 if many.refused or many.not_members else 0


if __name__ == "__main__":
    sys.exit(main())
