r"""What the files of `tools/try_psql` are made of: pieces of a few lines, each with a command of psql, or a text that psql may read otherwise.

Of each kind there are some texts. A slash between blanks, or behind one at the end, is a line feed. These stand for something that is chosen
for each file:

    <T>  DROP TABLE t7, a statement with a number of its own, in one of its forms; <t> the name alone. `check` is to report it where the
         server gets it, and nowhere else
    <U>  the same with u7. `check` may report it also where the server does not get it: in a branch that is not taken, or behind \q
    <C>  a command that leaves the statement alone; <S> one that sends it; <Q> one of the first without quotes

The last line feed of PIECES is left out. LAST has pieces that may only end a file, NAMED the kinds that docs/DIFFERENCES.md says are refused.
"""
import re

NAMES = (r"DROP TABLE {}", r"drop table {}", r"DROP TABLE IF EXISTS {}", r'DROP TABLE "{}"', r"DROP TABLE public.{}", r"DROP TABLE {} CASCADE")

COMMANDS = (
    r"\a", r"\t", r"\x", r"\timing", r"\timing off", r"\echo a", r"\echo 'a;b'", r'\echo "a b"', r"\pset null x", r"\conninfo", r"\errverbose",
    r"\set a b", r"\unset a", r"\dt", r"\d k", r"\encoding", r"\cd .", r"\qecho a", r"\warn a", r"\f ,", r"\C title", r"\setenv A b",
    r"\o /dev/null", r"\connect", r"\c -", r"\nosuch", r"\echo $$", r"\echo /*", r"\echo --", r"\p",
)
SENDERS = (r"\g", r"\gx", r"\g /dev/null", r"\g (format=csv)", r"\gset", r"\gset p_", r"\gexec", r"\crosstabview")

# The other files, and what stands for signs and lines.
FILES = {"more1.sql": "DROP TABLE t901;\n", "more2.sql": "DROP TABLE t902", "rows.txt": "a\tb\n"}
SIGNS = {"<rows>": "a\tb\n\\.", "<tab>": "\t", "<CR>": "\r", "<NUL>": "\0"}

PLAIN = ("<T>;", "<T>; <T>;", "SELECT 1;", "BEGIN; / <T>; / COMMIT;", "SELECT 1, '1'::int;", ";;<T>;;", "")

PIECES = {
    "a command at a line's start": ("<C> / <T>;", "<T>; / <C> / <C> / <T>;"),
    "a command, indented": ("  <C> / <T>;", "<tab><C> / <T>;", "<T>; /   <C> / <T>;"),
    "a command behind a statement": ("<T>; <C> / <T>;", "<T>;<C> / <T>;"),
    "a command behind a statement without semicolon": ("<T> <C> / ;", "SELECT 1 <C> / ; <T>;"),
    "a command inside a statement": ("DROP TABLE <C> / <t>;", "DROP <C> / TABLE <t>;", "SELECT 1, <C> /  2; <T>;"),
    "a command on a line inside a statement": ("DROP TABLE / <C> / <t>;", "SELECT 1 / <C> / ; <T>;", "SELECT 1, /   <C> / 2; <T>;"),
    "a command glued to a word": ("DROP TABLE <t><C> / ;", "SELECT 1<C> / ; <T>;", "SELECT 'a'<C> / ; <T>;", 'SELECT 1 AS "a"<C> / ; <T>;'),
    "a command in a line comment": ("-- <C> / <T>;", "<T> -- <C> / ; <T>;"),
    "a command behind a comment": ("/* a */ <C> / <T>;", "/* a / */<C> / <T>;"),
    "a command in a comment": ("/* <Q> / */ <T>;", "<T>; / /* / <Q> / */ / <T>;"),
    "a command in quotes": (
        "SELECT ' / <Q> / '; <T>;", r"SELECT E'\ / <Q> / '; <T>;", "SELECT $a$ / <Q> / $a$; <T>;", 'SELECT 1 AS " / <Q> / "; <T>;',
    ),
    "a command in brackets": ("SELECT (1 <C> / ); <T>;", "SELECT ( / <C> / 1); <T>;", "SELECT ARRAY[1 <C> / ]; <T>;"),
    r"`\\` behind a command": (r"<Q> \\ <T>; / <T>;", r"<Q>\\<T>;", r"<C> \\ / <T>;", r"<C> \\ <T>; <C> \\ <T>;"),
    "two commands in a line": ("<C> <C> / <T>;", "<Q><Q> / <T>;"),
    "a command that takes the line": (
        r"\echo <T>; / <T>;", r"\! true \\ <T>; / <T>;", r"\h DROP TABLE \\ <T>; / <T>;", r"SELECT 1 \g |cat \\ <T>; / <T>;",
        r"\copy k to '/dev/null' \\ <T>; / <T>;", r"\o |cat \\ <T>; / \o / <T>;", r"\nosuch \\ <T>; / <T>;",
    ),
    "quotes of a command": (
        r"\echo 'a / <T>;", r'\echo "a / <T>;', r"\echo 'a \\' \\ <T>;", r"\echo `true` \\ <T>;", r'\dt "a;b" / <T>;',
        r"\echo it's / <T>;", r"\echo 'a\'b' \\ <T>;",
    ),
    "a backslash alone": (
        r"\ / <T>;", r"\\ / <T>;", r"\\ <T>;", r"SELECT 1 \\ ; <T>;", r"<T>; \ <T>; / <T>;", r"\. / <T>;", r"\. <T>; / <T>;",
    ),
    "a command that sends, at the line's end": ("<T> <S> / <T>;", "SELECT 1 AS a <S> / <T>;", "SELECT 1 / , 2 AS a <S> / <T>;"),
    "a command that sends, tight": ("DROP TABLE <t><S> / <T>;", "SELECT 'a'<S> / <T>;", "SELECT (1)<S> / <T>;"),
    "a command that sends, on its own line": ("<T> / <S> / <T>;", "SELECT 1 / <S> / <T>;", "SELECT 1 /   <S> / <T>;"),
    r"a command that sends, before `\\`": (r"SELECT 1 <S> \\ <T>;", r"<T> <S> \\ <T>; / <T>;"),
    "a command that sends, behind a semicolon": ("SELECT 1; <S> / <T>;", "<T>; / <S> / <T>;", "<T>; <S> <S> / <T>;"),
    "a command that sends, behind a comment": ("SELECT 1 -- a / <S> / <T>;", "SELECT 1 /* a */ <S> / <T>;", "/* a */ <S> / <T>;"),
    "a command that sends, in a comment or quotes": (
        "SELECT 1 -- <S> / ; <T>;", "SELECT 1 /* <S> / */; <T>;", "SELECT ' <S> / '; <T>;", "SELECT $$ / <S> / $$; <T>;",
    ),
    r"`\watch`": (r"DROP TABLE <t> \watch 0.01 / <T>;", r"SELECT 1/0 \watch 0.01 / <T>;", r"SELECT 1/0 / \watch 0.01 / <T>;"),
    r"`\gdesc`": (r"<U> \gdesc / <T>;", r"SELECT 1 \gdesc / <T>;", r"SELECT 1 / \gdesc / <T>;"),
    r"`\gexec` of a text": (
        r"SELECT '<T>' \gexec / <T>;", r"SELECT '<T>' / \gexec / <T>;", r"SELECT 'COPY k FROM stdin' \gexec / <rows> / <T>;",
    ),
    r"`\;`": (
        r"SELECT 1 \; <T>;", r"\; <T>;", r"<T> \; / <T>;", r"<T>\;<T>;", r"<T>\; <T> \g / <T>;", r"<T>; \; <T>;",
        r"SELECT 1\; SELECT 2\; <T>;",
    ),
    r"`\:`": (r"SELECT '1'\:\:int; <T>;", r"SELECT (ARRAY[1, 2])[1\:2]; <T>;"),
    "the buffer is cleared": (
        r"SELECT 1 \r / <T>;", r"<T> \r / <T>;", r"<T>; \r / <T>;", r"SELECT ( \r / <T>;", r"SELECT 1 / \reset / <T>;",
        r"SELECT 1 \r <T>; / <T>;", r"COPY k FROM stdin \r / <T>;",
    ),
    "the buffer is shown": (r"SELECT 1 \p / ; <T>;", r"<T> \p\g / <T>;", r"SELECT 1 \w /dev/null / ; <T>;", r"<T>; \p / <T>;"),
    "COPY with rows": (
        "COPY k FROM stdin; / <rows> / <T>;", r"copy public.k (a, b) from STDIN with (format csv); / a,b / \. / <T>;",
        "COPY k FROM /* a */ stdin -- b / ; / <rows> / <T>;",
        r"COPY k FROM stdin; / <T>;<tab>b / it's<tab>/* / \\a<tab>$$ / <rows> / <T>;",
        r"COPY k FROM stdin DELIMITER ';'; / a;b / \. / <T>;", "COPY k FROM stdin WHERE a <> 'b'; / <rows> / <T>;",
        "BEGIN; / COPY k FROM stdin; / <rows> / COMMIT; / <T>;",
    ),
    "COPY with more on its line": (
        "COPY k FROM stdin; <T>; / <rows> / <T>;", "COPY k FROM stdin; COPY k FROM stdin; / <rows> / <rows> / <T>;",
        "<T>; COPY k FROM stdin; / <rows> / <T>;", "COPY k FROM stdin; <C> / <rows> / <T>;",
        "COPY k FROM stdin; SELECT 'a / <rows> / b'; <T>;", "COPY k FROM stdin; /* / <rows> / */ <T>;",
        "COPY k FROM stdin; -- a / <rows> / <T>;",
    ),
    r"COPY with `\;`": (
        r"SELECT 1 \; COPY k FROM stdin; / <rows> / <T>;", r"COPY k FROM stdin \; <T>; / <rows> / <T>;",
        r"COPY k FROM stdin \; COPY k FROM stdin; / <rows> / <rows> / <T>;",
    ),
    r"COPY with `\g`": (
        r"COPY k FROM stdin \g / <rows> / <T>;", r"COPY k FROM stdin / \g / <rows> / <T>;",
        r"COPY k FROM stdin \g rows.txt / <T>; / \. / <T>;",
    ),
    "COPY that fails": (
        "COPY nosuch FROM stdin; / <T>;", "COPY nosuch FROM stdin; / <T>; / <rows> / ; / <T>;",
        r"SELECT 1/0 \; COPY k FROM stdin; / <T>; / \. / <T>;", "BEGIN; SELECT 1/0; / COPY k FROM stdin; / <T>; / ROLLBACK; / <T>;",
    ),
    "COPY FROM stdout": ("COPY k FROM stdout; / <rows> / <T>;", "COPY k FROM STDOUT; / <T>;<tab>b / <rows> / <T>;"),
    "COPY without rows": (
        "COPY k TO stdout; / <T>;", "COPY (SELECT 1) TO stdin; / <T>;", "COPY k FROM '/dev/null'; / <T>;", "COPY k TO stdin; / <T>;",
        "COPY k FROM 'stdin'; / <T>;",
    ),
    "COPY with another FROM stdin": ("COPY s FROM '/dev/null' WHERE 'a' IS DISTINCT FROM stdin; / <T>; / <T>;",),
    r"`\copy` with rows": (
        r"\copy k from stdin / <rows> / <T>;", r"  \copy k from stdin with (format csv) / a,b / \. / <T>;",
        r"<T>; \copy k from stdin / <rows> / <T>;", r"\copy k from stdin / <T>;<tab>b / <rows> / <T>;",
        r"\copy k from stdout / <rows> / <T>;",
    ),
    r"`\copy` that fails": (r"\copy nosuch from stdin / <T>;", r"\copy nosuch from stdin / <T>; / \. / <T>;"),
    r"`\copy` without rows": (
        r"\copy k from pstdin / <T>;", r"\copy k from 'rows.txt' / <T>;", r"\copy (select 1) to '/dev/null' / <T>;",
        r"\copy k to stdout / <T>;", r"\copy k from program 'cat rows.txt' / <T>;",
    ),
    r"`\if`": (
        r"\if true / <T>; / \endif / <T>;", r"\if false / <U>; / \else / <T>; / \endif / <T>;",
        r"\if false / <U>; / \elif true / <T>; / \else / <U>; / \endif", r"\if true / \if false / <U>; / \endif / <T>; / \endif",
        r"\if :{?nosuch} / <U>; / \else / <T>; / \endif", r"\if nonsense / <U>; / \endif / <T>;", r"\endif / <T>;",
    ),
    r"`\if`, indented or behind a statement": (
        r"\if true /   \echo a /   <T>; / \endif", r"\if true /   \if false / <U>; /   \endif / <T>; / \endif",
        r"<T>; \if true / <T>; / \endif / <T>;",
    ),
    r"`\if` before `\\`": (r"\if true \\ <T>; / \endif", r"\if false \\ <U>; \endif / <T>;", r"\if true / \endif \\ <T>;"),
    r"`\if` inside a statement": (
        r"DROP TABLE / \if true / <t> / \else / <u> / \endif / ; / <T>;", r"SELECT 1 / \if false / , 2 / \endif / ; <T>;",
    ),
    "a branch without semicolon": (
        r"\if false / SELECT 1 / \endif / <T>;", r"\if false / <U> / \else / <T> / \endif / ; / <T>;",
        r"\if true / <T> / \endif / ; / <T>;",
    ),
    "a branch with an open quote": (
        r"\if false / SELECT 'it / \endif / <U>; / '; / \endif / <T>;", r"\if false / /* / \endif / */ <U>; / \endif / <T>;",
    ),
    "a branch with commands": (
        r"\if false / \g / \r / \i nosuch.sql / SELECT 1 \gset / \endif / <T>;", r"\if false / \q / \endif / <T>;",
        r"\if false / \! \endif / <U>; / \endif / <T>;", r"\if false / COPY k FROM stdin; / <rows> / \endif / <T>;",
        r"\if true / COPY k FROM stdin; / <rows> / \endif / <T>;", r"\if true / <S> / \endif / <T>;",
        r"\if false / COPY k FROM stdin; / it's<tab>b / \. / \endif / <U>; / '; / \endif / <T>;", r"\if true / <T>; <C> / \endif / <T>;",
    ),
    "another file": (
        r"\i more1.sql / <T>;", r"\ir more1.sql / <T>;", r"\include more1.sql / <T>;", r"\include_relative 'more1.sql' / <T>;",
        r"\i more2.sql / <T>;", r"\i nosuch.sql / <T>;", r"\set f more1.sql / \i :f / <T>;",
    ),
    "another file, not at a line's start": (
        r"<T>; \i more1.sql / <T>;", r"  \ir more1.sql / <T>;", r"\i more1.sql \\ <T>;", r"SELECT 1 \i more1.sql / ; <T>;",
        r"<T>; \ir more2.sql",
    ),
    "a variable that is a name": (
        r"\set v <t> / DROP TABLE :v; / <T>;", r'\set v <t> / DROP TABLE :"v"; / <T>;', r"\set s public / DROP TABLE :s.<t>; / <T>;",
    ),
    "a variable that is a value": (
        r"\set v 1 / SELECT :v; <T>;", r"\set v 'it''s' / SELECT :'v'; <T>;", "SELECT :{?nosuch}; <T>;",
        """SELECT :'DBNAME' AS :"DBNAME"; <T>;""", "SELECT ':v', $$:v$$; <T>; -- :v", "SELECT (ARRAY[1, 2])[1:2]; <T>;",
    ),
    "a variable that is a statement": (
        r"\set v '<T>;' / :v / <T>;", r"\set v '<T>' / :v; / <T>;", r"SELECT '<T>' AS v \gset / :v; / <T>;",
        r"\set v `echo '<T>;'` / :v / <T>;",
    ),
    "a variable that ends a statement": (r"\set v ';' / SELECT 1 :v <T>; / <T>;", r"\set v '; <T>' / SELECT 1 :v; / <T>;"),
    "a variable that opens a quote": (
        r"\set v '''' / SELECT :v '; <T>; --' / ; / <T>;", r"\set v '/*' / SELECT 1 :v ; <T>; */ ; / <T>;",
        r"\set v '--' / SELECT 1 :v ' / ; <T>; --' / ;",
    ),
    "a variable that is empty": (r"\set v / SELECT 1 :v ; <T>;", r"\set v / :v <T>; / <T>;", r"\set v / DROP TABLE :v <t>; / <T>;"),
    "a variable that names stdin": (r"\set v stdin / COPY k FROM :v; / <rows> / <T>;", r"\set v 'COPY k FROM stdin;' / :v / <rows> / <T>;"),
    "SINGLELINE": (r"\set SINGLELINE on / <T> / <T> / \set SINGLELINE off / <T>;",),
    "a setting of psql": (
        r"\set AUTOCOMMIT off / <T>; / COMMIT; / \set AUTOCOMMIT on", r"\set FETCH_COUNT 1 / SELECT 1; <T>;",
        r"\set ON_ERROR_ROLLBACK on / BEGIN; SELECT 1/0; <T>; COMMIT;",
    ),
    r"`\restrict`": (
        r"\restrict abc / <T>; / \unrestrict abc / <T>;", r"\restrict abc / \i more1.sql / <T>; / \unrestrict abc / <T>;",
        r"\restrict abc / <T> \g / <T>; / \unrestrict abc / ; / <T>;",
    ),
    "standard_conforming_strings": (
        r"SET standard_conforming_strings = off; / SELECT '\''; <T>; --' / ; / SET standard_conforming_strings = on; / <T>;",
        r"SET standard_conforming_strings = off; / SELECT '\'; <T>; --'; / SET standard_conforming_strings = on; / <T>;",
    ),
    "a string": (
        r"SELECT E'\'; <T>; '; <T>;", r"SELECT e'a\\'; <T>;", r"SELECT 'a\'; <T>;", "SELECT 'a' / 'b'; <T>;",
        r"SELECT U&'\0061', U&'!0061' UESCAPE '!'; <T>;", r"SELECT N'\'; <T>; --';",
    ),
    "a string that goes on": (r"SELECT E'a' / '\''; <T>; --' / ;", r"SELECT E'a' / '\'; <T>; --'; / <T>;"),
    "a quote behind a number": (
        r"SELECT 1E'\''; <T>; --' / ;", r"SELECT 1.E'\''; <T>; --' / ;", r"SELECT 1e5E'\''; <T>; --' / ;", "SELECT 1$$; <T>; $$; / <T>;",
        "SELECT 1$a$; <T>; $a$; / <T>;",
    ),
    "a dollar quote": ("SELECT $a$; $$ <T>; $a$; <T>;", "SELECT 1 AS a$$; <T>; SELECT 1 AS b$$;", "SELECT $é$ <T>; $é$; <T>;"),
    "a comment": (
        "/* a /* b */ <T>; */ <T>;", "-- ' / <T>;", "/* ' */ <T>; /* ' */", "SELECT 1 +-- ' / 1; <T>;", "SELECT 1 */* ' */1; <T>;",
        "-- +goose StatementBegin / <T>; / -- +goose StatementEnd / <T>;",
    ),
    "a carriage return": (
        "-- a<CR><T>; / <T>;", "<T>;<CR><T>;", "SELECT 1 -- '<CR>; <T>; --' / ;", r"\echo a<CR><T>; / <T>;", r"<T>;<CR>\a / <T>;",
        r"SELECT 1 \g<CR> / <T>;<CR>", r"COPY k FROM stdin;<CR> / a<tab>b<CR> / \.<CR> / <T>;<CR>",
    ),
    "a byte of zero": ("SELECT 1<NUL>' / ; <T>; --' / ;", "-- a<NUL>b / <T>;", "<T>;<NUL> / <T>;"),
    "a statement with semicolons": ("CREATE OR REPLACE RULE r AS ON UPDATE TO k DO ALSO (NOTIFY a; NOTIFY b); <T>;",),
    "a function named begin": (
        "CREATE OR REPLACE FUNCTION begin() RETURNS int LANGUAGE sql AS 'SELECT 1'; / <T>; / SELECT 1 AS end; / <T>;",
    ),
    "BEGIN ATOMIC": (
        "CREATE OR REPLACE FUNCTION f() RETURNS int LANGUAGE sql BEGIN ATOMIC SELECT 1; SELECT CASE WHEN true THEN 1 END; END; / <T>;",
        "CREATE OR REPLACE PROCEDURE p() BEGIN ATOMIC DELETE FROM k; DELETE FROM k; END; <T>;",
    ),
    'U&"..."': (r'SELECT 1 AS U&"d\0061t"; <T>;', r'DROP TABLE IF EXISTS U&"d\0061t"; <T>;'),
    "a line GO": ("<T>; / GO / ; / <T>;",),
}

LAST = {
    "no semicolon at the end": ("<T>", "<T> /", "<T> -- a", "<T> / /* a */", "<T>; <T>"),
    "a command at the end": ("<T>; <C>", "<T> <C>", "<T> / <C>", "<T>; SELECT 1 <C> /"),
    "a command that sends, at the end": ("<T> <S>", "<T> / <S>", "SELECT 1 <S> / <T>"),
    r"`\q`": (r"<T>; \q / <U>; /", r"<T> \q / <U>; /", r"<T>; / \q / <U>; /", r"DROP TABLE <t>\q / <U>; /", r"  \quit / <U>; /"),
    "COPY to the end of the file": (
        "<T>; / COPY k FROM stdin; / a<tab>b /", "<T>; / COPY k FROM stdin;", r"<T>; / \copy k from stdin / a<tab>b",
    ),
    r"`\if` without end": (r"\if true / <T>; /", r"\if false / <U>; /", r"<T>; / \if true / <T> /"),
    "ON_ERROR_STOP": (r"\set ON_ERROR_STOP on / <T>; / SELECT 1/0; / <U>; /",),
}

# Pieces for versions of psql from these on.
LATER = {
    16: {
        r"`\bind`": (
            r"SELECT $1 \bind 1 \g / <T>;", r"SELECT $1 / \bind 1 / \g / <T>;", r"SELECT $1 \bind 1 \g \\ <T>;",
            r"SELECT $1 \bind 1 / ; <T>;",
        ),
        r"`\watch` with a count": (
            r"SELECT 1 \watch c=2 i=0.01 / <T>;", r"<T> \watch c=2 i=0.01 / <T>;", r"SELECT 1; \watch c=2 i=0.01 / <T>;",
        ),
    },
}

NAMED = {"BEGIN ATOMIC", 'U&"..."'}


def text_of(piece):
    """The text that a piece stands for, but for what is chosen."""
    return re.sub("<(rows|tab|CR|NUL)>", lambda found: SIGNS[found[0]], re.sub(" /( |$)", "\n", piece))


def of_version(major):
    """The pieces for a version of psql: of each kind its texts."""
    later = [pieces for since, pieces in LATER.items() if major >= since]
    return {kind: [text + " /" for text in texts] for pieces in (PIECES, *later) for kind, texts in pieces.items()}
