"""A diagnosis in lines: the place, the refusal, the line of the script with a sign below it, the matter and the cause."""
from lore_lib.diagnosis import could_words
from lore_lib.places import marked, place, words
from lore_lib.refusals import BY_NUMBER


def told(diagnosis, chunk, count, source):
    """The lines for one refused statement; `count` is its number, None where a person wrote none, and the source a file's name
    or empty."""
    refusal = BY_NUMBER.get(diagnosis.number)
    name = f"{diagnosis.number} {refusal.name}" if refusal else str(diagnosis.number)
    line, column = place(chunk, diagnosis.start)
    head = f"{source}:{line}:{column}: " if source else f"line {line}, column {column}: "
    whole, signs = marked(chunk, diagnosis.start, diagnosis.end)
    lines = [f"{head}refused {name}: {diagnosis.matter}", "    " + whole, "    " + signs]
    if diagnosis.could:
        lines.append(f"  could stand here: {could_words(diagnosis.could)}")
    if diagnosis.cause:
        lines.append(f"  mostly because: {diagnosis.cause}")
    if count:
        lines.append(f"  in statement {count}, which begins at {words(chunk, min(chunk.begin(), len(chunk.data)))}")
    return lines
