"""The code with regions of a program in a file, from `rgo emit`."""

import tempfile

import code_text
import command
import error_pages


def text_of(program, file, text):
    """The status of `rgo emit` for the text of a file, and what it prints."""
    with tempfile.TemporaryFile() as source, tempfile.TemporaryFile() as out:
        source.write(text)
        source.seek(0)
        status = error_pages.run([program, "emit"], source, file, text, out)
        out.seek(0)
        return status, out.read()


def code_of(file, text):
    """The code of the text of a file; or the status of rgo, if that is not 0. The tool ends if rgo cannot do it."""
    program = error_pages.existing()
    status, emitted = text_of(program, file, text)
    if status == 64:
        raise command.Stop(status, f"{program} does not know the command emit: build it again")
    if status:
        return status
    code = code_text.read(emitted)
    if isinstance(code, int):
        raise command.Stop(70, f"{program} printed a text that is not a code text: line {code}")
    return code
