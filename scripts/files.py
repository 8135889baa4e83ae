#!/usr/bin/env python3
"""files.py PROGRAM: wants that the program's files are safe: what it saves takes the place of a file whole or not at all, what others
made is neither opened for writing nor removed nor followed, and a file that can't be written is told before anything is lost.

Each case is a function whose name says what is wanted. Some change user, or mount a small file system, which only root may: where that
can't be had they are left out, and that is told. The last line is 'N passed, M failed'."""
import os
import resource
import signal
import stat
import subprocess
import sys
import tempfile
import threading
import time

HERE = os.path.join(os.path.dirname(os.path.abspath(__file__)), "..", "examples")
NETWORK = os.path.abspath(os.path.join(HERE, "small.toml"))
WRITE = "route_desk: 64 Write\n"
NOBODY = 65534
TABLES = ["network.csv", "points.csv", "sets.csv", "routes.csv"]
PROGRAM = ""


class Failure(Exception):
    """What isn't as it should be."""


class LeftOut(Exception):
    """Why a case can't be tried here."""


def want(holds, what):
    if not holds:
        raise Failure(what)


def run(words, text="version\n", **more):
    """Standard output, standard error and status of a run."""
    ran = subprocess.run([PROGRAM, *words], input=text, capture_output=True, text=True, timeout=60, **more)
    return ran.stdout, ran.stderr, ran.returncode


def saved_by(events):
    """The text that a run with these events saves."""
    with tempfile.TemporaryDirectory() as folder:
        run(["run", NETWORK, "--save", "kept"], events, cwd=folder)
        return read(folder, "kept")


def read(folder, name):
    with open(os.path.join(folder, name), encoding="utf-8") as it:
        return it.read()


def write(folder, name, text="before\n", mode=None):
    with open(os.path.join(folder, name), "w", encoding="utf-8") as it:
        it.write(text)
    if mode is not None:
        os.chmod(os.path.join(folder, name), mode)


def mode_of(folder, name):
    return stat.S_IMODE(os.stat(os.path.join(folder, name)).st_mode)


class Held:
    """A run whose script hasn't ended yet."""

    def __init__(self, words, folder):
        self.run = subprocess.Popen([PROGRAM, *words], stdin=subprocess.PIPE, stdout=subprocess.PIPE, stderr=subprocess.PIPE, text=True, cwd=folder)

    def answer(self, line):
        """The answer to a line, after which the run has surely begun."""
        self.run.stdin.write(line + "\n")
        self.run.stdin.flush()
        return self.run.stdout.readline()

    def end(self):
        """Standard error and status, once the script has ended."""
        _, errors = self.run.communicate(timeout=60)
        return errors, self.run.returncode


def under_own_number(folder, before):
    """A run of which a shell makes a file or a link under the first name that the run will try, in which NAME stands for it."""
    command = f'NAME=.route_desk-$$-0; {before}; exec "$0" run "$1" --save kept'
    ran = subprocess.run(["bash", "-c", command, PROGRAM, NETWORK], input="fail 2 0\n", capture_output=True, text=True, timeout=60, cwd=folder)
    return ran.stdout, ran.stderr, ran.returncode


def as_root():
    if os.geteuid() != 0:
        raise LeftOut("only root can change user")


# ---- what others made

def a_file_beside_it_named_new_stays(folder):
    write(folder, "kept")
    write(folder, "kept.new", "mine\n")
    want(run(["run", NETWORK, "--save", "kept"], "fail 2 0\n", cwd=folder) == ("taken 1\n", "", 0), "the run")
    want(read(folder, "kept") == saved_by("fail 2 0\n"), "what is saved")
    want(sorted(os.listdir(folder)) == ["kept", "kept.new"] and read(folder, "kept.new") == "mine\n", "kept.new")


def a_file_under_the_temporary_name_stays(folder):
    want(under_own_number(folder, "echo mine > $NAME") == ("taken 1\n", "", 0), "the run")
    (other,) = set(os.listdir(folder)) - {"kept"}
    want(read(folder, other) == "mine\n" and read(folder, "kept") == saved_by("fail 2 0\n"), "the files")


def a_link_under_the_temporary_name_isnt_followed(folder):
    write(folder, "victim", "mine\n")
    want(under_own_number(folder, "ln -s victim $NAME") == ("taken 1\n", "", 0), "the run")
    want(read(folder, "victim") == "mine\n" and len(os.listdir(folder)) == 3, "the files")
    want(read(folder, "kept") == saved_by("fail 2 0\n"), "what is saved")


def a_link_to_nothing_under_the_temporary_name_isnt_followed(folder):
    want(under_own_number(folder, "ln -s victim $NAME") == ("taken 1\n", "", 0), "the run")
    want("victim" not in os.listdir(folder) and read(folder, "kept") == saved_by("fail 2 0\n"), "the files")


def all_names_taken_is_told_at_once(folder):
    ran = under_own_number(folder, "for k in {0..999}; do : > .route_desk-$$-$k; done")
    want(ran == ("", WRITE, 1), f"the run: {ran}")
    want(len(os.listdir(folder)) == 1000, "the files")


def a_save_that_fails_removes_only_its_own(folder):
    write(folder, "kept")
    ran = under_own_number(folder, "echo mine > $NAME; ulimit -f 0; trap '' XFSZ")
    want(ran == ("taken 1\n", WRITE, 1), f"the run: {ran}")
    (other,) = set(os.listdir(folder)) - {"kept"}
    want(read(folder, other) == "mine\n" and read(folder, "kept") == "before\n", "the files")


# ---- what FILE is

def a_pipe_is_refused_at_once(folder):
    os.mkfifo(os.path.join(folder, "kept"))
    want(run(["run", NETWORK, "--save", "kept"], cwd=folder) == ("", WRITE, 1), "the run")
    got = run(["run", NETWORK, "--save", "kept", "--explain"], cwd=folder)
    want(got == ("", "kept: a pipe isn't written\n" + WRITE, 1), f"explained: {got}")


def a_folder_is_refused_at_once(folder):
    os.mkdir(os.path.join(folder, "kept"))
    want(run(["run", NETWORK, "--save", "kept"], cwd=folder) == ("", WRITE, 1), "the run")


def a_name_without_a_folder_is_refused_at_once(folder):
    for name in ("nowhere/kept", "", "kept/", "nowhere/..", "x" * 300):
        want(run(["run", NETWORK, "--save", name], cwd=folder) == ("", WRITE, 1), f"the name {name[:20]!r}")
    want(not os.listdir(folder), "files are left")


def a_long_name_is_saved(folder):
    name = "k" * 255
    want(run(["run", NETWORK, "--save", name], "fail 2 0\n", cwd=folder) == ("taken 1\n", "", 0), "the run")
    want(os.listdir(folder) == [name], "the files")


def a_link_is_followed_and_stays(folder):
    os.mkdir(os.path.join(folder, "other"))
    write(folder, "other/file", mode=0o640)
    os.symlink("other/file", os.path.join(folder, "kept"))
    want(run(["run", NETWORK, "--save", "kept"], "fail 2 0\n", cwd=folder) == ("taken 1\n", "", 0), "the run")
    want(os.path.islink(os.path.join(folder, "kept")) and read(folder, "other/file") == saved_by("fail 2 0\n"), "the file")
    want(mode_of(folder, "other/file") == 0o640 and os.listdir(os.path.join(folder, "other")) == ["file"], "its mode")


def a_link_to_nothing_makes_the_file(folder):
    os.mkdir(os.path.join(folder, "other"))
    os.symlink("second", os.path.join(folder, "kept"))
    os.symlink("other/file", os.path.join(folder, "second"))
    want(run(["run", NETWORK, "--save", "kept"], "fail 2 0\n", cwd=folder) == ("taken 1\n", "", 0), "the run")
    want(os.listdir(os.path.join(folder, "other")) == ["file"] and read(folder, "kept") == saved_by("fail 2 0\n"), "the file")


def links_that_go_round_are_refused_at_once(folder):
    os.symlink("kept", os.path.join(folder, "kept"))
    want(run(["run", NETWORK, "--save", "kept"], cwd=folder) == ("", WRITE, 1), "the run")


def a_full_device_is_told(folder):
    want(run(["run", NETWORK, "--save", "/dev/full"], cwd=folder) == ("version 0 accepted 0\n", WRITE, 1), "the run")
    got = run(["run", NETWORK, "--save", "/dev/full", "--explain"], cwd=folder)
    want(got == ("version 0 accepted 0\n", "/dev/full: No space left on device\n" + WRITE, 1), f"explained: {got}")


def a_device_is_saved_to(folder):
    want(run(["run", NETWORK, "--save", "/dev/null"], cwd=folder) == ("version 0 accepted 0\n", "", 0), "the run")


def a_picture_goes_to_no_device_and_no_pipe(folder):
    os.mkfifo(os.path.join(folder, "pipe.dot"))
    os.symlink("/dev/null", os.path.join(folder, "nothing.dot"))
    got = run(["run", NETWORK, "--explain"], "picture nothing.dot\npicture pipe.dot\n", cwd=folder)
    reasons = "line 1: nothing.dot: a device isn't written\nline 2: pipe.dot: a pipe isn't written\n"
    want(got == ("refused 64 Write\n" * 2, reasons, 0), f"the run: {got}")


def a_picture_has_the_ending_of_one(folder):
    names = ("now", "now.png", "now.toml", "svg", ".svg", "now.svg/..", "/dev/stdout")
    got = run(["run", NETWORK, "--explain"], "".join(f"picture {name}\n" for name in names), cwd=folder)
    reasons = "".join(f"line {at}: {name}: a picture's name ends in .svg, .dot or .gv\n" for at, name in enumerate(names, 1))
    want(got == ("refused 64 Write\n" * len(names), reasons, 0), f"the run: {got}")
    want(os.listdir(folder) == [], "no file")


def endings_are_read_in_either_case(folder):
    got = run(["run", NETWORK], "picture one.SVG\npicture two.Dot\npicture three.gv\n", cwd=folder)
    want(got == ("picture one.SVG\npicture two.Dot\npicture three.gv\n", "", 0), f"the run: {got}")
    drawn, text = (run(["picture", NETWORK, *words])[0].replace(" link sets", " link sets, version 0: after 0 accepted events") for words in (["--svg"], []))
    want(read(folder, "one.SVG") == drawn, "an SVG document")
    want(read(folder, "two.Dot") == read(folder, "three.gv") == text, "a DOT text")


KEPT = "this run reads it, or writes it itself"


def a_picture_takes_the_place_of_no_file_of_its_run(folder):
    with open(NETWORK, encoding="utf-8") as it:
        text = it.read()
    write(folder, "net.dot", text)
    os.symlink("net.dot", os.path.join(folder, "link.dot"))
    script = "picture net.dot\npicture link.dot\npicture ./answers.dot\nversion\n"
    with open(os.path.join(folder, "answers.dot"), "w", encoding="utf-8") as answers:
        ran = subprocess.run([PROGRAM, "run", "net.dot", "--explain"], input=script, stdout=answers, stderr=subprocess.PIPE, text=True, timeout=60, cwd=folder)
    names = ("net.dot", "link.dot", "./answers.dot")
    want(ran.stderr == "".join(f"line {at}: {name}: {KEPT}\n" for at, name in enumerate(names, 1)), f"the reasons: {ran.stderr}")
    want(read(folder, "answers.dot") == "refused 64 Write\n" * 3 + "version 0 accepted 0\n", "the answers")
    want(read(folder, "net.dot") == text, "the network")
    write(folder, "steps.dot", "picture steps.dot\n")
    want(run(["play", "net.dot", "steps.dot"], cwd=folder) == ("refused 64 Write\n", "", 0), "a script that is played")
    want(read(folder, "steps.dot") == "picture steps.dot\n", "the script")
    with open(os.path.join(folder, "steps.dot"), encoding="utf-8") as steps:
        ran = subprocess.run([PROGRAM, "run", "net.dot"], stdin=steps, capture_output=True, text=True, timeout=60, cwd=folder)
    want((ran.stdout, ran.stderr, ran.returncode) == ("refused 64 Write\n", "", 0), f"a script that is redirected: {ran}")
    want(read(folder, "steps.dot") == "picture steps.dot\n", "the script that is redirected")


def a_picture_takes_the_place_of_no_file_of_a_seat(folder):
    names = ("net.dot", "seats.dot", "one.dot", "two.dot", "two.gv", "three.dot")
    with open(NETWORK, encoding="utf-8") as it:
        texts = {"net.dot": it.read()}
    texts["seats.dot"] = ('[[seat]]\nname = "a"\nin = "one.dot"\nout = "answers"\n'
                          '[[seat]]\nname = "b"\nin = "two.dot"\nout = "two.gv"\n')
    texts["one.dot"] = "".join(f"picture {name}\n" for name in names)
    texts["two.dot"] = "version\n"
    for name, text in texts.items():
        write(folder, name, text)
    got = run(["serve", "net.dot", "seats.dot"], cwd=folder)
    want(got == ("", "", 0), f"the run: {got}")
    want(read(folder, "answers") == "refused 64 Write\n" * 5 + "picture three.dot\n", "the answers")
    want(all(read(folder, name) == text for name, text in texts.items()), "what is read")
    want(read(folder, "two.gv") == "version 0 accepted 0\n", "the answers of the other seat")


EVENTS = "fail 1 0\nsync\nfail 2 0\n"


def the_word_save_writes_what_a_run_saves(folder):
    # what is accepted and not published is saved too
    write(folder, "kept", mode=0o600)
    got = run(["run", NETWORK], EVENTS + "save kept\nsave new.toml\n", cwd=folder)
    want(got == ("taken 1\nsynced 1\ntaken 2\nsaved kept\nsaved new.toml\n", "", 0), f"the run: {got}")
    want(read(folder, "kept") == read(folder, "new.toml") == saved_by(EVENTS), "the texts")
    want(mode_of(folder, "kept") == 0o600, "the mode")
    want(sorted(os.listdir(folder)) == ["kept", "new.toml"], "nothing else")


def the_word_save_keeps_a_window_that_is_killed(folder):
    with subprocess.Popen([PROGRAM, "run", NETWORK], stdin=subprocess.PIPE, stdout=subprocess.PIPE, cwd=folder) as ran:
        ran.stdin.write((EVENTS + "save kept\nrestore 1 0\n").encode())
        ran.stdin.flush()
        told = [ran.stdout.readline() for _ in range(5)]
        ran.kill()
    want(told[-2:] == [b"saved kept\n", b"taken 3\n"], f"the answers: {told}")
    want(read(folder, "kept") == saved_by(EVENTS), "the text")


def the_word_save_writes_its_own_network_by_that_name_alone(folder):
    with open(NETWORK, encoding="utf-8") as it:
        text = it.read()
    write(folder, "net.toml", text)
    write(folder, "end")
    write(folder, "steps", "fail 1 0\nsave ./net.toml\nsave link\nsave steps\nsave end\nsave /dev/null\nsave pipe\nsave .\nsave no/where\n")
    os.symlink("net.toml", os.path.join(folder, "link"))
    os.mkfifo(os.path.join(folder, "pipe"))
    got = run(["play", "net.toml", "steps", "--save", "end", "--explain"], cwd=folder)
    want(got[0] == "taken 1\n" + "refused 64 Write\n" * 8 and got[2] == 0, f"the run: {got}")
    reasons = got[1].splitlines()
    want(reasons[:4] == [f"line {at}: {name}: {KEPT}" for at, name in enumerate(("./net.toml", "link", "steps", "end"), 2)], f"the reasons: {got[1]}")
    want(reasons[4:6] == ["line 6: /dev/null: a device isn't written", "line 7: pipe: a pipe isn't written"] and len(reasons) == 8, f"the reasons: {got[1]}")
    want(read(folder, "net.toml") == text and read(folder, "end") == saved_by("fail 1 0\n"), "the files")
    got = run(["run", "net.toml"], "fail 1 0\nsave net.toml\nrestore 1 0\n", cwd=folder)
    want(got == ("taken 1\nsaved net.toml\ntaken 2\n", "", 0), f"the run: {got}")
    want(read(folder, "net.toml") == saved_by("fail 1 0\n"), "the network")


def the_word_save_leaves_a_full_disk_as_it_was(folder):
    write(folder, "kept")
    got = run(["run", NETWORK, "--explain"], "save kept\nversion\n", cwd=folder, preexec_fn=lambda: resource.setrlimit(resource.RLIMIT_FSIZE, (20, 20)), restore_signals=False)
    want(got[0].startswith("refused 64 Write\n") and read(folder, "kept") == "before\n", f"the run: {got}")
    want(os.listdir(folder) == ["kept"], "nothing else")


def no_file_is_written_with_no_files(folder):
    write(folder, "steps", "picture net.svg\nsave now.toml\n")
    with open(os.path.join(folder, "steps"), encoding="utf-8") as it:
        text = it.read()
    reason = "no file is written: --no-files is given\n"
    wanted = ("refused 62 BadLine\n" * 2, f"line 1: {reason}line 2: {reason}", 0)
    for words in (["run", NETWORK], ["run", NETWORK, "--workers", "2"], ["play", NETWORK, "steps"]):
        got = run([*words, "--no-files", "--explain"], text, cwd=folder)
        want(got == wanted, f"{words[0]}: {got}")
    want(os.listdir(folder) == ["steps"], "nothing else")


def a_table_goes_to_no_pipe(folder):
    os.mkfifo(os.path.join(folder, "sets.csv"))
    got = run(["export", NETWORK, folder, "--explain"])
    want(got == ("", f"{folder}/sets.csv: a pipe isn't written\n" + WRITE, 1), f"the run: {got}")


def tables_before(folder, place="."):
    """Makes the files of a network's tables, each with a text of its own; their nodes."""
    for name in TABLES:
        write(folder, os.path.join(place, name), f"{name} before\n")
    return [os.stat(os.path.join(folder, place, name)).st_ino for name in TABLES]


def want_as_they_were(folder, nodes, place="."):
    """Wants that the tables are those that were made, and that nothing else is there."""
    for name, node in zip(TABLES, nodes):
        path = os.path.join(place, name)
        want(read(folder, path) == f"{name} before\n" and os.stat(os.path.join(folder, path)).st_ino == node, f"{name}")
    want(sorted(os.listdir(os.path.join(folder, place))) == sorted(TABLES), f"the files: {os.listdir(os.path.join(folder, place))}")


def tables_take_their_places_together(folder):
    nodes = tables_before(folder)
    want(run(["export", NETWORK, folder]) == ("", "", 0), "the run")
    for name, node in zip(TABLES, nodes):
        want("before" not in read(folder, name) and os.stat(os.path.join(folder, name)).st_ino != node, name)
    want(sorted(os.listdir(folder)) == sorted(TABLES), "nothing else")


def tables_stay_where_one_of_them_is_a_folder(folder):
    write(folder, "points.csv", "points.csv before\n")
    os.mkdir(os.path.join(folder, "sets.csv"))
    got = run(["export", NETWORK, folder, "--explain"])
    want(got == ("", f"{folder}/sets.csv: a folder isn't written\n" + WRITE, 1), f"the run: {got}")
    want(read(folder, "points.csv") == "points.csv before\n" and sorted(os.listdir(folder)) == ["points.csv", "sets.csv"], "the files")


def tables_stay_where_the_disk_is_full(folder):
    # there is room for the first three, and not for the last
    nodes = tables_before(folder)
    got = run(["export", NETWORK, folder], preexec_fn=lambda: resource.setrlimit(resource.RLIMIT_FSIZE, (60, 60)), restore_signals=False)
    want(got == ("", WRITE, 1), f"the run: {got}")
    want_as_they_were(folder, nodes)


def new_tables_go_where_one_of_them_cant_be_made(folder):
    os.symlink("nowhere/routes.csv", os.path.join(folder, "routes.csv"))
    want(run(["export", NETWORK, folder]) == ("", WRITE, 1), "the run")
    want(os.listdir(folder) == ["routes.csv"], f"the files: {os.listdir(folder)}")


def export_as_nobody(folder, place):
    program, network = open_to_nobody(folder)
    ran = subprocess.run([program, "export", network, place], capture_output=True, text=True, timeout=60, cwd=folder, user=NOBODY, group=NOBODY, extra_groups=[])
    return ran.stdout, ran.stderr, ran.returncode


def tables_get_their_places_back_where_a_later_one_cant_take_its_own(folder):
    # in a folder like /tmp the last table is another's: all are written, three take their places, and the last can't
    as_root()
    os.mkdir(os.path.join(folder, "sticky"))
    nodes = tables_before(folder, "sticky")
    os.chmod(os.path.join(folder, "sticky"), 0o1777)
    for name in TABLES[:3]:
        os.chown(os.path.join(folder, "sticky", name), NOBODY, NOBODY)
    want(export_as_nobody(folder, "sticky") == ("", WRITE, 1), "the run")
    want_as_they_were(folder, nodes, "sticky")


def new_tables_go_where_a_later_one_cant_take_its_place(folder):
    as_root()
    os.mkdir(os.path.join(folder, "sticky"))
    write(folder, "sticky/routes.csv", "routes.csv before\n", mode=0o666)
    os.chmod(os.path.join(folder, "sticky"), 0o1777)
    want(export_as_nobody(folder, "sticky") == ("", WRITE, 1), "the run")
    want(os.listdir(os.path.join(folder, "sticky")) == ["routes.csv"] and read(folder, "sticky/routes.csv") == "routes.csv before\n", "the files")


def a_picture_and_tables_keep_modes(folder):
    write(folder, "now.dot", mode=0o600)
    write(folder, "points.csv", mode=0o640)
    want(run(["run", NETWORK], "picture now.dot\n", cwd=folder)[2] == 0 and run(["export", NETWORK, folder])[2] == 0, "the runs")
    want((mode_of(folder, "now.dot"), mode_of(folder, "points.csv")) == (0o600, 0o640), "the modes")
    want(sorted(os.listdir(folder)) == ["network.csv", "now.dot", "points.csv", "routes.csv", "sets.csv"], "the files")


# ---- mode and owner

def a_mode_is_kept(folder):
    for mode in (0o600, 0o640, 0o644, 0o400):
        write(folder, "kept", mode=mode) if not os.path.exists(os.path.join(folder, "kept")) else os.chmod(os.path.join(folder, "kept"), mode)
        want(run(["run", NETWORK, "--save", "kept"], "fail 2 0\n", cwd=folder) == ("taken 1\n", "", 0), f"the run, {mode:o}")
        want(mode_of(folder, "kept") == mode, f"the mode {mode:o}")


def a_new_file_has_the_mode_that_the_mask_leaves(folder):
    for mask in (0o022, 0o027, 0o077):
        command = ["bash", "-c", f'umask {mask:o}; exec "$0" run "$1" --save kept', PROGRAM, NETWORK]
        subprocess.run(command, input="version\n", capture_output=True, text=True, timeout=60, cwd=folder, check=True)
        want(mode_of(folder, "kept") == 0o666 & ~mask, f"the mask {mask:o}")
        os.remove(os.path.join(folder, "kept"))


def an_owner_is_kept(folder):
    as_root()
    write(folder, "kept", mode=0o640)
    os.chown(os.path.join(folder, "kept"), 12345, 23456)
    want(run(["run", NETWORK, "--save", "kept"], cwd=folder) == ("version 0 accepted 0\n", "", 0), "the run")
    it = os.stat(os.path.join(folder, "kept"))
    want((it.st_uid, it.st_gid, mode_of(folder, "kept")) == (12345, 23456, 0o640), "owner, group and mode")


def open_to_nobody(folder):
    """Lets the user nobody into the folder, the program and the network: what is needed is copied there."""
    as_root()
    os.chmod(folder, 0o777)
    for name in (PROGRAM, NETWORK):
        subprocess.run(["cp", name, folder], check=True)
    program, network = os.path.join(folder, os.path.basename(PROGRAM)), os.path.join(folder, os.path.basename(NETWORK))
    os.chmod(program, 0o755)
    os.chmod(network, 0o644)
    try:
        subprocess.run([program, "--version"], user=NOBODY, group=NOBODY, extra_groups=[], capture_output=True, check=True)
    except (OSError, subprocess.CalledProcessError) as error:
        raise LeftOut("nobody can't run a program here") from error
    return program, network


def run_as_nobody(folder, words, text="version\n"):
    program, network = open_to_nobody(folder)
    ran = subprocess.run([program, "run", network, *words], input=text, capture_output=True, text=True, timeout=60,
                         cwd=folder, user=NOBODY, group=NOBODY, extra_groups=[])
    return ran.stdout, ran.stderr, ran.returncode


def an_owner_that_cant_be_kept_is_told(folder):
    as_root()
    write(folder, "kept", mode=0o664)
    got = run_as_nobody(folder, ["--save", "kept"])
    want(got == ("version 0 accepted 0\n", "route_desk: kept: its owner or its group isn't kept\n", 0), f"the run: {got}")
    want(os.stat(os.path.join(folder, "kept")).st_uid == NOBODY and mode_of(folder, "kept") == 0o644, "another group may do no more than anyone")


def a_folder_without_leave_is_told_at_once(folder):
    as_root()
    os.mkdir(os.path.join(folder, "closed"))
    write(folder, "closed/kept")
    os.chmod(os.path.join(folder, "closed"), 0o555)
    got = run_as_nobody(folder, ["--save", "closed/kept", "--explain"])
    want(got == ("", "closed/kept: Permission denied\n" + WRITE, 1), f"the run: {got}")
    want(read(folder, "closed/kept") == "before\n", "the file")


def a_file_of_another_in_a_sticky_folder_is_told_at_once(folder):
    as_root()
    os.mkdir(os.path.join(folder, "sticky"))
    write(folder, "sticky/kept", mode=0o666)
    os.chmod(os.path.join(folder, "sticky"), 0o1777)
    got = run_as_nobody(folder, ["--save", "sticky/kept"])
    want(got == ("", WRITE, 1), f"the run: {got}")
    want(os.listdir(os.path.join(folder, "sticky")) == ["kept"], "the files")


# ---- while the run goes on

def a_file_that_others_changed_is_saved_and_told(folder):
    write(folder, "kept", read(os.path.dirname(NETWORK), "small.toml"))
    held = Held(["run", "kept", "--save", "kept"], folder)
    want(held.answer("fail 2 0") == "taken 1\n", "the answer")
    with open(os.path.join(folder, "kept"), "a", encoding="utf-8") as it:
        it.write("# another\n")
    want(held.end() == ("route_desk: kept: others changed it during this run; what they wrote is replaced\n", 0), "the end")
    want(read(folder, "kept") == saved_by("fail 2 0\n"), "what is saved")


def two_runs_with_one_file_end_well(folder):
    write(folder, "kept")
    first, second = (Held(["run", NETWORK, "--save", "kept"], folder) for _ in range(2))
    want((first.answer("fail 2 0"), second.answer("fail 1 0")) == ("taken 1\n",) * 2, "the answers")
    want(first.end() == ("", 0), "the first")
    want(read(folder, "kept") == saved_by("fail 2 0\n"), "what the first saved")
    want(second.end() == ("route_desk: kept: others changed it during this run; what they wrote is replaced\n", 0), "the second")
    want(read(folder, "kept") == saved_by("fail 1 0\n") and os.listdir(folder) == ["kept"], "what the second saved")


def a_folder_that_goes_away_is_told_at_the_end(folder):
    os.mkdir(os.path.join(folder, "gone"))
    held = Held(["run", NETWORK, "--save", "gone/kept"], folder)
    want(held.answer("fail 2 0") == "taken 1\n", "the answer")
    os.rmdir(os.path.join(folder, "gone"))
    want(held.end() == (WRITE, 1), "the end")


def a_full_file_system_leaves_the_file(folder):
    as_root()
    small = os.path.join(folder, "small")
    os.mkdir(small)
    if subprocess.run(["mount", "-t", "tmpfs", "-o", "size=64k", "tmpfs", small], capture_output=True, check=False).returncode:
        raise LeftOut("no file system can be mounted here")
    try:
        write(small, "kept")
        held = Held(["run", NETWORK, "--save", "kept", "--explain"], small)
        want(held.answer("fail 2 0") == "taken 1\n", "the answer")
        with open(os.path.join(small, "filler"), "wb", buffering=0) as it:
            try:
                while it.write(b"x" * 1024):
                    pass
            except OSError:
                pass
        want(held.end() == ("kept: No space left on device\n" + WRITE, 1), "the end")
        want(read(small, "kept") == "before\n" and sorted(os.listdir(small)) == ["filler", "kept"], "the files")
    finally:
        subprocess.run(["umount", small], check=True)


def pairs_of_runs_at_once_leave_one_whole_text(folder):
    """200 pairs of runs with one file: each ends with 0, and the file is one whole text at every moment that it is looked at."""
    whole = {"before\n", saved_by("fail 2 0\n"), saved_by("fail 1 0\n")}
    write(folder, "kept")
    torn, ended = [], threading.Event()

    def look():
        while not ended.is_set():
            text = read(folder, "kept")
            if text not in whole:
                torn.append(text)
            time.sleep(0.0005)

    looker = threading.Thread(target=look)
    looker.start()
    try:
        for number in range(200):
            pair = [subprocess.Popen([PROGRAM, "run", NETWORK, "--save", "kept"], stdin=subprocess.PIPE, stdout=subprocess.DEVNULL,
                                     stderr=subprocess.DEVNULL, cwd=folder) for _ in range(2)]
            for it, event in zip(pair, (b"fail 2 0\n", b"fail 1 0\n")):
                it.stdin.write(event)
                it.stdin.close()
            want([it.wait(timeout=60) for it in pair] == [0, 0], f"pair {number}")
            want(read(folder, "kept") in whole - {"before\n"}, f"pair {number}: the file")
    finally:
        ended.set()
        looker.join()
    want(not torn and os.listdir(folder) == ["kept"], f"{len(torn)} looks found a text that is none")


def strict_saves_nothing(folder):
    write(folder, "kept")
    got = run(["run", NETWORK, "--save", "kept", "--strict"], "fail 2 0\nfail 9 0\nnonsense\n", cwd=folder)
    want(got == ("taken 1\nrefused 17 NoSet\nrefused 62 BadLine\n", "route_desk: 2 lines refused\n", 1), f"the run: {got}")
    want(read(folder, "kept") == "before\n" and os.listdir(folder) == ["kept"], "the file")


# ---- standard streams

def a_reader_that_goes_away_is_no_fault_to_tell(folder):
    with open(os.path.join(folder, "script"), "w", encoding="utf-8") as it:
        it.write("version\n" * 100000)
    command = 'set -o pipefail; "$0" run "$1" --explain < script | head -1'
    ran = subprocess.run(["bash", "-c", command, PROGRAM, NETWORK], capture_output=True, text=True, timeout=60, cwd=folder)
    want((ran.stdout, ran.stderr, ran.returncode) == ("version 0 accepted 0\n", "", 1), f"the run: {ran}")


def help_into_a_full_device_is_told(folder):
    for words in ("--help", "run --help", "--version"):
        ran = subprocess.run(["bash", "-c", f'"$0" {words} > /dev/full', PROGRAM], capture_output=True, text=True, timeout=60, cwd=folder)
        want((ran.stderr, ran.returncode) == (WRITE, 1), f"{words}: {ran}")


CASES = [it for it in list(globals().values()) if callable(it) and getattr(it, "__code__", None) and it.__code__.co_varnames[:1] == ("folder",)
         and it.__code__.co_argcount == 1 and it is not open_to_nobody]


def main():
    global PROGRAM
    PROGRAM = os.path.abspath(sys.argv[1])
    signal.signal(signal.SIGXFSZ, signal.SIG_IGN)
    resource.setrlimit(resource.RLIMIT_CORE, (0, 0))
    passed = failed = 0
    for case in CASES:
        with tempfile.TemporaryDirectory() as folder:
            try:
                case(folder)
                passed += 1
            except LeftOut as why:
                print(f"{case.__name__}: left out, {why}")
            except (Failure, OSError, subprocess.SubprocessError, ValueError) as failure:
                print(f"{case.__name__}: {failure}")
                failed += 1
    print(f"{passed} passed, {failed} failed")
    return 1 if failed or not passed else 0


if __name__ == "__main__":
    sys.exit(main())
