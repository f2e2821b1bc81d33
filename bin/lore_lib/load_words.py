"""The words of the tools that write loads, and how such a tool works."""
import re
from itertools import islice

from lore_lib import kept, limits
from lore_lib.load_out import BATCH, Options, script
from lore_lib.texts import IDENTIFIER_FORM, LABEL_FORM, is_name
from lore_lib.tool import Fault, Input, Words, tell, written

TARGET = re.compile(rf"{IDENTIFIER_FORM}(?:\.(?:{LABEL_FORM}|[A-Za-z0-9_%]+|#)|[()|?*+])*")
CONSTANT = re.compile(r"\{([A-Z_]+)\}")


def count(word):
    """A word that is a number of bytes."""
    if not re.fullmatch("[1-9][0-9]{0,11}", word):
        raise ValueError
    return int(word)


def load_parser(usage):
    """The words that each of these tools takes."""
    parser = Words(usage)
    parser.add_argument("words", nargs="*")
    parser.add_argument("--long", choices=("cut", "skip", "parts"))
    parser.add_argument("--empty-key")
    parser.add_argument("--file")
    parser.add_argument("--into")
    parser.add_argument("--id")
    parser.add_argument("--ref", action="append", default=[])
    parser.add_argument("--input-bytes", type=count, default=limits.INPUT_BYTES)
    return parser


def target(path):
    """The path that records are added to."""
    if not TARGET.fullmatch(path) or not is_name(re.match(IDENTIFIER_FORM, path).group()):
        raise Fault(1, f"--into takes a path, as Nobel or G.shop: {path} is none")
    return path


def options_of(given):
    """How values are written, and the name, the files. With --into there is no name."""
    options = Options(**{key: getattr(given, key) for key in Options.__dataclass_fields__ if hasattr(given, key)})
    if (options.id is None) != (not options.ref):
        raise Fault(2, "--id and --ref go together")
    if options.empty_key == "" or options.file == "":
        raise Fault(2, "a label isn't empty")
    if options.arrays and kept.is_mark(options.empty_key or ""):
        raise Fault(2, f"{options.empty_key} is a mark of --arrays")
    if options.into is not None:
        target(options.into)
        return options, BATCH, given.words
    name = given.words[0]
    if not is_name(name):
        raise Fault(1, f"{name} is no name: letters, digits and _, not a digit first, and no reserved word")
    return options, name, given.words[1:]


def parsed(parser, words):
    """The words, taken apart: options and files stand in any order."""
    given = parser.parse_intermixed_args(words)
    if any(word.startswith("-") for word in given.words) or given.into is None and not given.words:
        parser.error("a name is needed, and files behind it")
    return given


def bring_in(tool, given, read, apart=False):
    """Writes the statements for the documents that `read(files, input, options)` gives."""
    options, name, files = options_of(given)
    documents = list(islice(read(files, Input(given.input_bytes), options), limits.OBJECTS + 1))
    if len(documents) > limits.OBJECTS:
        raise Fault(1, f"there are more than {limits.OBJECTS} objects")
    data, notes = script(name, documents, options, apart)
    written(data)
    for note in notes:
        tell(tool, note)
    return 0


def filled(text):
    """Help with the limits in place of their names in braces."""
    return CONSTANT.sub(lambda it: str(getattr(limits, it.group(1))), text)
