"""The program, PostgreSQL and SQLite: what each answers over the rows of a table."""
import copy
import glob
import json
import os
import pwd
import re
import shutil
import signal
import sqlite3
import subprocess
import sys
import tempfile
import time
from dataclasses import dataclass

from functions import FIELD, NEGATIVE, NO_CHARACTER, NO_VALUE, OVERFLOW, SHIFT, ZERO
from spelling import postgresql_domains, quoted, sql_literal, whole
from streams import OPTIONS, read_rows, spelled, words, written
from tables import INTEGERS
from telling import Wrote, row_apart
from trees import folded

TOP = os.path.dirname(os.path.dirname(os.path.dirname(os.path.realpath(__file__))))
PROGRAM = os.environ.get("ROWFN_STREAM", TOP + "/crates/rowfn_stream/out/rowfn_stream")


class Missing(Exception):
    """Something that the tool needs is not there."""


@dataclass(frozen=True)
class Fault:
    """A refusal in a row, by its name and what the engine says."""
    name: str
    told: str = ""

    def __str__(self):
        return f"{self.name} {self.told}".strip()


# what the program says of the rows after one that it refuses
NOT_ASKED = ...


def value_of(name, text):
    """The value of a type that a text says, as the program and PostgreSQL write it, or the text where it is none of that type."""
    if name == "bool":
        return {"true": True, "false": False}.get(text, text)
    return int(text) if name in INTEGERS and text is not None and re.fullmatch("-?[0-9]+", text) else text


# -- the program ---------------------------------------------------------------------------------------------------------

@dataclass(frozen=True)
class Told:
    """What --explain says of an answer: the text and the type of its tree, and how that prints itself, as it is written and as
    rules make it."""
    text: str
    printed: str
    type: str
    text_by_rules: str
    printed_by_rules: str
    type_by_rules: str

    @property
    def is_rewritten(self):
        return (self.text, self.printed) != (self.text_by_rules, self.printed_by_rules)


TREE = r": (.*?)\n    printed (.*?)\n    type (\S+), weight \d+\n"
EXPLAINED = re.compile(f"  tree{TREE}(?:  optimized{TREE})?", re.DOTALL)


# what is told behind a fault of an expression that chooses
ADVICE = "; all parts of CASE are computed"


def fault_of(told):
    """The fault, of one that is told with the text that a cast cannot read: `"x" is no i64 number (try_cast is null there)`."""
    told = told.removesuffix(ADVICE)
    cast = re.fullmatch(r'".*"(?:\.\.)? is no (truth value|\w+ number) \(try_cast is null there\)', told, re.DOTALL)
    if not cast:
        return told
    return "text that is no truth value in cast to bool" if cast[1] == "truth value" else f"text that is no {cast[1]} in cast"


class Program:
    """rowfn_stream over tables, asked by texts of expressions. It runs what rules make of them."""

    def __init__(self, path):
        self.path, self.runs = path, 0
        if not os.access(path, os.X_OK):
            raise Missing(f"no program at {path}: say `rt run` in crates/rowfn_stream, or set ROWFN_STREAM")
        self.version = self.run(["--version"], "").stdout.strip()
        page = self.run(["--help"], "").stdout
        lacking = [option for option in OPTIONS if option not in page]
        if lacking:
            raise Missing(f"the program at {path} has no {', '.join(lacking)}: build it from today's sources")

    def run(self, arguments, rows):
        self.runs += 1
        ran = subprocess.run([self.path, *arguments], input=rows.encode(), capture_output=True, close_fds=False)
        ran.stdout, ran.stderr = ran.stdout.decode(), ran.stderr.decode()
        return ran

    @staticmethod
    def list_of(texts):
        """These texts as one expression, each with its name."""
        return ", ".join(f"{text}\nas r{place}" for place, text in enumerate(texts))

    def answers(self, texts, table, types):
        """What each of these texts answers in each row: a value, or a fault, after which the rows are NOT_ASKED. A text may begin
        with a minus sign."""
        ran = self.run(["--blank-lines", "null", *words(table), "--", self.list_of(texts)], written(table).text())
        if ran.returncode not in (0, 1):
            raise Refused(ran.returncode, ran.stderr.strip())
        rows = read_rows(ran.stdout, table.layout.output_delimiter, table.layout.nulls[0])[table.layout.header:]
        if any(len(row) != len(types) for row in rows):
            raise Refused(ran.returncode, f"{len(types)} answers are written as {rows[:1]}")
        found = [[value_of(name, row[place]) for row in rows] for place, name in enumerate(types)]
        if ran.returncode == 1:
            told = re.fullmatch(r"rowfn_stream: row (\d+): (?:E7|E10 Custom:) (.*)\n", ran.stderr)
            if not told or int(told[1]) != len(rows) + 1:
                raise Refused(ran.returncode, ran.stderr.strip())
            for column in found:
                column += [Fault(fault_of(told[2]))] + [NOT_ASKED] * (len(table.rows) - len(rows) - 1)
        if any(len(column) != len(table.rows) for column in found):
            raise Refused(ran.returncode, f"{len(rows)} rows of {len(table.rows)}")
        return found

    def picked(self, condition, table, *answers):
        """What --where writes of the rows that a text takes: as they are; or with what a text answers in each, named r."""
        appended = ["--append", "--", *(f"{answer}\nas r" for answer in answers)] if answers else []
        # a null in the only column is an empty line
        arguments = ["--blank-lines", "null", *words(table, True), "--where=" + condition, *appended]
        ran = self.run(arguments, written(table).text())
        return Wrote(arguments, ran.returncode, ran.stdout, ran.stderr)

    def differ_in_picked(self, condition, true, other, values, table):
        """How --where writes other rows than the true ones; and with --append, than these with the values of another text. Of
        each: where the first of these rows is that differs, how it was asked, what was written, and what should have been."""
        lines = written(table)
        header = lines.header.split("\n")[-2] + "\n" if table.layout.header else ""
        picked, wanted = self.picked(condition, table), [lines.rows[row] for row in true]
        if not picked.is_calm() or picked.out != header + "".join(wanted):
            yield row_apart(picked.out, header, true, wanted), "--where", picked, header + "".join(wanted)
        # a record that is short or long has no answer at the place of its name, and one delimiter is for both sides
        if table.layout.ragged or table.layout.delimiter != ",":
            return
        null = table.layout.nulls[0]
        both = [lines.rows[row][:-1] + "," + spelled(values[row], null) + "\n" for row in true]
        picked, header = self.picked(condition, table, other), header.replace("\n", ",r\n")
        if not picked.is_calm() or not same_rows(picked.out, header + "".join(both), null):
            yield row_apart(picked.out, header, true, both), "--where with --append", picked, header + "".join(both)

    def explained(self, texts, table):
        """What --explain says of these texts, which it reads from a file."""
        with tempfile.NamedTemporaryFile("w", prefix="conformance.", encoding="utf-8", newline="") as file:
            file.write(self.list_of(texts))
            file.flush()
            ran = self.run(["--explain", *words(table), "-f", file.name], written(table).text())
        # a tree that no rule changes is printed once
        found = [Told(*parts[:3], *(parts[3:] if parts[4] else parts[:3])) for parts in EXPLAINED.findall(ran.stdout)]
        if ran.returncode != 0 or len(found) != len(texts):
            raise Refused(ran.returncode, f"--explain says of {len(texts)} answers: {ran.stdout}{ran.stderr}")
        return found


def same_rows(one, other, null):
    """Whether two texts are the same rows of CSV, whatever is in quotes."""
    try:
        return read_rows(one, null=null) == read_rows(other, null=null)
    except ValueError:
        return False


class Refused(Exception):
    """The program ended otherwise than with answers or with a fault of arithmetic."""

    def __init__(self, status, told):
        super().__init__(f"status {status}: {told}")
        self.status, self.told = status, told


# -- PostgreSQL ----------------------------------------------------------------------------------------------------------

ASK = r"""
SET client_min_messages = warning;
CREATE OR REPLACE FUNCTION ask(expression text) RETURNS json LANGUAGE plpgsql AS $body$
DECLARE
    -- THEN and END leave the text no way to be two columns, or one and its name
    asked text := 'SELECT array_agg(answer::text ORDER BY place) FROM (SELECT place, CASE WHEN true THEN ' || expression
        || E'\n END AS answer FROM given WHERE place >= $1 AND place < $2) t';
    answers text[];
    faults text[] := '{}';
    part text[];
    last integer;
    begins integer;
    one integer;
BEGIN
    SELECT max(place) + 1 INTO last FROM given;
    BEGIN
        EXECUTE asked INTO answers USING 0, last;
        RETURN json_build_array(answers, null);
    EXCEPTION WHEN OTHERS THEN answers := '{}';
    END;
    FOR begins IN SELECT generate_series(0, last - 1, 64) LOOP
        BEGIN
            EXECUTE asked INTO part USING begins, least(begins + 64, last);
            answers := answers || part;
            faults := faults || array_fill(null::text, ARRAY[cardinality(part)]);
        EXCEPTION WHEN OTHERS THEN
            FOR one IN begins .. least(begins + 64, last) - 1 LOOP
                BEGIN
                    EXECUTE asked INTO part USING one, one + 1;
                    answers := answers || part;
                    faults := faults || null::text;
                EXCEPTION WHEN OTHERS THEN
                    answers := answers || null::text;
                    faults := faults || (SQLSTATE || ' ' || SQLERRM);
                END;
            END LOOP;
        END;
    END LOOP;
    RETURN json_build_array(answers, faults);
END
$body$;
"""
# how the refusals of PostgreSQL are told apart, by its SQLSTATE: of a domain's CHECK, of a range, of a divisor, of a text that is cast,
# of a length; and those that functions.py raises, where faults here are none there
STATES = {"22003": OVERFLOW, "23514": OVERFLOW, "22012": ZERO, "22P02": NO_VALUE, "22011": NEGATIVE,
          "22023": FIELD, "54000": NO_CHARACTER, "YK006": SHIFT}


class Postgresql:
    """A cluster of its own, in a folder of its own, on a unix socket alone; it ends with the tool, however that ends."""
    packages = "postgresql postgresql-client util-linux"

    def __init__(self):
        self.folder = self.server = None
        self.database = "postgres"
        # Debian keeps the server's programs out of the way
        folders = sorted(glob.glob("/usr/lib/postgresql/*/bin"), key=lambda path: [int(number) for number in re.findall(r"\d+", path)])
        self.path = os.pathsep.join([os.environ.get("PATH", ""), *folders[-1:]])
        for word in ("initdb", "postgres", "psql", "setpriv"):
            if not shutil.which(word, path=self.path):
                raise Missing(f"{word} is not there: install {self.packages}")

    def words(self, *words):
        """The words of a command that runs as the server's user, and ends where the tool does."""
        user = ["--reuid=" + self.user, "--regid=" + str(pwd.getpwnam(self.user).pw_gid), "--clear-groups"] if self.user else []
        return ["setpriv", *user, "--pdeathsig", "QUIT", *words]

    def start(self):
        self.folder = tempfile.mkdtemp(prefix="conformance.", dir="/tmp")
        self.user = None
        if os.getuid() == 0:
            # a server does not run as root
            self.user = next(user for user in ("postgres", "nobody") if user in {entry.pw_name for entry in pwd.getpwall()})
            os.chown(self.folder, pwd.getpwnam(self.user).pw_uid, -1)
        self.environment = dict(os.environ, PATH=self.path, HOME=self.folder, LC_ALL="C.UTF-8", PGOPTIONS="")
        self.made("initdb", "-D", self.folder + "/data", "-A", "trust", "-U", "asks", "-E", "UTF8", "--locale=C", "--no-sync")
        with open(self.folder + "/log", "wb") as log:
            self.server = subprocess.Popen(
                self.words(self.which("postgres"), "-D", self.folder + "/data", "-k", self.folder, "-c", "listen_addresses=",
                           "-c", "fsync=off", "-c", "jit=off", "-c", "max_connections=100"),
                stdout=log, stderr=log, env=self.environment, cwd="/", start_new_session=True)
        for _ in range(300):
            if self.psql("SELECT 1;", check=False).returncode == 0:
                break
            if self.server.poll() is not None:
                break
            time.sleep(0.1)
        self.version = "PostgreSQL " + self.ask_plain("SHOW server_version;")[0].split()[0]
        self.ask_plain("\n".join(postgresql_domains()) + ASK)

    def which(self, word):
        return shutil.which(word, path=self.path)

    def another_database(self, name):
        """This server, asked in a database of its own, so that processes do not fill one table."""
        self.ask_plain(f"CREATE DATABASE {name} TEMPLATE postgres;")
        other = copy.copy(self)
        other.database = name
        return other

    def made(self, word, *words):
        """Runs a command to its end, and where the tool is interrupted, ends it with all that it started."""
        ran = subprocess.Popen(self.words(self.which(word), *words), env=self.environment, cwd="/", stdout=subprocess.DEVNULL,
                               stderr=subprocess.PIPE, text=True, start_new_session=True)
        try:
            told = ran.communicate()[1]
        except BaseException:
            os.killpg(ran.pid, signal.SIGKILL)
            ran.wait()
            raise
        if ran.returncode != 0:
            raise Missing(f"{word}: {told.strip()}")

    def psql(self, said, check=True):
        words = [self.which("psql"), "-X", "-q", "-A", "-t", "-v", "ON_ERROR_STOP=1", "-h", self.folder, "-U", "asks", "-d", self.database]
        ran = subprocess.run(words, input=said.encode(), capture_output=True, env=self.environment, cwd="/", start_new_session=True)
        if check and ran.returncode != 0:
            with open(self.folder + "/log", encoding="utf-8", errors="replace") as log:
                raise Missing(f"psql: {ran.stderr.decode()}{''.join(log.readlines()[-3:])}")
        return ran

    def ask_plain(self, said):
        return [line for line in self.psql(said).stdout.decode().split("\n") if line]

    def fill(self, table):
        """The statements that make a table the given one."""
        types = ", ".join(f"{quoted(column.name, chr(34))} {column.type}" for column in table.columns)
        rows = ",\n".join("(" + ", ".join(map(sql_literal, (place, *row))) + ")" for place, row in enumerate(table.rows))
        return f"DROP TABLE IF EXISTS given;\nCREATE TABLE given (place integer PRIMARY KEY{', ' * bool(types)}{types});\nINSERT INTO given VALUES {rows};\n"

    def answers(self, texts, table):
        """What each text answers in each row: a text or None, or a fault with its SQLSTATE."""
        asked = "".join(f"SELECT ask($asked${text}$asked$);\n" for text in texts)
        found = []
        for line in self.ask_plain(self.fill(table) + asked):
            answers, faults = json.loads(line)
            found.append([Fault(*fault.split(" ", 1)) if fault else answer for answer, fault in zip(answers, faults or [None] * len(answers))])
        assert len(found) == len(texts)
        return found

    def stop(self):
        if self.server:
            self.server.send_signal(signal.SIGINT)
            try:
                self.server.wait(20)
            except subprocess.TimeoutExpired:
                os.killpg(self.server.pid, signal.SIGKILL)
                self.server.wait()
            self.server = None
        if self.folder:
            # what was ended may still have been writing
            for _ in range(20):
                shutil.rmtree(self.folder, ignore_errors=True)
                if not os.path.exists(self.folder):
                    break
                time.sleep(0.1)
            self.folder = None


def interrupted(number, _):
    raise SystemExit(128 + number)


def with_server(make, body):
    """What `body` answers to the program that is made and a server, which ends however that ends; 2 where something is missing."""
    for number in (signal.SIGHUP, signal.SIGINT, signal.SIGTERM):
        signal.signal(number, interrupted)
    try:
        program, server = make(), Postgresql()
        try:
            server.start()
            return body(program, server)
        finally:
            server.stop()
    except Missing as missing:
        print(missing, file=sys.stderr)
        return 2


# -- SQLite --------------------------------------------------------------------------------------------------------------

class Sqlite:
    """A table in memory. LIKE looks at case here, as in SQL; ILIKE is LIKE of what lower() makes."""
    packages = "python3"

    def __init__(self, looks_at_case=True):
        self.version = "SQLite " + sqlite3.sqlite_version
        self.table, self.looks_at_case = None, looks_at_case

    def fill(self, table):
        if self.table is not table:
            self.table = table
            self.connection = sqlite3.connect(":memory:")
            self.connection.create_function("folded", 1, lambda text: None if text is None else folded(text), deterministic=True)
            self.connection.create_function("whole", 2, whole, deterministic=True)
            self.connection.execute(f"PRAGMA case_sensitive_like = {'ON' if self.looks_at_case else 'OFF'}")
            types = ", ".join(f"{quoted(column.name, chr(34))} {'TEXT' if column.type == 'utf8' else 'INTEGER'}" for column in table.columns)
            self.connection.execute(f"CREATE TABLE given (place INTEGER{', ' * bool(types)}{types})")
            signs = ", ".join("?" * (1 + len(table.columns)))
            held = [tuple(None if isinstance(value, int) and value > INTEGERS["i64"][1] else value for value in row) for row in table.rows]
            self.connection.executemany(f"INSERT INTO given VALUES ({signs})", [(place, *row) for place, row in enumerate(held)])

    def answers(self, texts, table):
        """What each text answers in each row, as SQLite holds it; None where one nests deeper than its parser goes."""
        self.fill(table)
        try:
            rows = self.connection.execute(f"SELECT {', '.join(texts)} FROM given ORDER BY place").fetchall()
        except sqlite3.OperationalError as error:
            if str(error) != "parser stack overflow":
                raise
            return None
        return [list(column) for column in zip(*rows)]
