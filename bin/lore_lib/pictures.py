"""Pictures for Graphviz: texts in them, and how the program dot draws them."""
import re
import shutil
import signal
import subprocess

from lore_lib.tool import Fault, Words

FORMS = ("svg", "png", "pdf")
SETTINGS = ["  rankdir = LR;", '  node [shape = circle, fontname = "sans-serif"];', '  edge [fontname = "sans-serif"];']


def shown(text):
    """A text of Graphviz that shows this one: it reads backslashes and entities, and no control characters."""
    plain = text.replace("&", "&amp;").replace("\\", "\\\\").replace('"', '\\"')
    return '"' + re.sub("[\0-\x1f]", lambda it: chr(0x2400 + ord(it.group())), plain) + '"'


def digraph(name, remark, lines):
    """The text of a picture: its lines are nodes and arrows."""
    return "\n".join([f"// {remark}", f"digraph {name} {{", *SETTINGS, *lines, "}", ""]).encode()


def form_of(words, usage):
    """The form that the words ask for, None for text of Graphviz."""
    parser = Words(usage)
    parser.add_argument("-T", dest="form", choices=FORMS)
    form = parser.parse_args(words).form
    if form and not shutil.which("dot"):
        raise Fault(3, "-T needs the program dot, which isn't installed; it comes with the package graphviz")
    return form


def by_dot(form, picture):
    """The picture itself. A dot that ends before it has read all has failed, and its closed pipe ends nothing else."""
    closed = signal.signal(signal.SIGPIPE, signal.SIG_IGN)
    done = subprocess.run(["dot", "-T" + form], input=picture, stdout=subprocess.PIPE)
    signal.signal(signal.SIGPIPE, closed)
    if done.returncode:
        raise Fault(4, f"dot failed: it ended with status {done.returncode}")
    return done.stdout


def in_form(form, picture):
    """The picture in the form that is asked for."""
    return by_dot(form, picture) if form else picture
