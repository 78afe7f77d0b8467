"""The editors' plugins: they know the words of the language, and Vim finds a colour for every token."""

import glob
import json
import os
import re
import subprocess
import tempfile
import unittest

from common import HERE, LOOK, LookCase, example, find, text_of

from view import reader
from view.words import FILES

EDITORS = os.path.join(HERE, "editors")
STEPS = {"panel", "cycle", "raw", *reader.NAME_STEPS, *reader.ADDRESS_STEPS}
JOINS = {"over", "from", "by", "on", "with", "at", "bit", *reader.MODULE_KINDS}
CHOICES = {"if", "then", "else", "end", "or"}

# Fails where a character that is no separator has no colour, or a name is coloured as too long.
VIM = r"""
set runtimepath^=%s/vim
filetype plugin on
syntax enable
edit %s
let s:bad = []
for s:line in range(1, line('$'))
  let s:text = getline(s:line)
  for s:column in range(1, len(s:text))
    let s:name = synIDattr(synID(s:line, s:column, 0), 'name')
    if s:text[s:column - 1] =~ '\S' && (s:name == '' || s:name == 'ssiLongName')
      call add(s:bad, s:line . ':' . s:column . ' ' . s:name)
    endif
  endfor
endfor
call writefile([&filetype, &makeprg, join(s:bad, ', ')], '%s')
qall!
"""

# Writes the places to which the list of faults jumps.
MAKE = r"""
let g:ssi_look = '%s'
set runtimepath^=%s/vim
filetype plugin on
edit %s
silent make!
call writefile(map(filter(getqflist(), 'v:val.valid'), {_, one -> one.lnum . ':' . one.col}), '%s')
qall!
"""


class Grammars(unittest.TestCase):
    def words_of(self, text, first):
        """The words of the alternatives in which `first` is the first."""
        found = re.search(rf"\((?:\?:)?({first}(?:\|[a-zA-Z]+)+)\)", text.replace("\\|", "|").replace("\\)", ")").replace("\\(", "("))
        return set(found.group(1).split("|"))

    def test_all_know_the_words_of_the_language(self):
        for path in ("vim/syntax/ssi.vim", "vscode/ssi.tmLanguage.json", "sublime/ssi.sublime-syntax"):
            text = text_of(os.path.join(EDITORS, path))
            self.assertEqual(self.words_of(text, "cn"), reader.WORDS, path)
            self.assertEqual(self.words_of(text, "panel"), STEPS, path)
            self.assertEqual(self.words_of(text, "over"), JOINS, path)
            self.assertEqual(self.words_of(text, "if"), CHOICES, path)
            self.assertEqual(self.words_of(text, "PTS"), {*FILES, "RUN"}, path)

    def test_the_grammar_of_vs_code_is_json_with_patterns_that_work(self):
        grammar = json.loads(text_of(os.path.join(EDITORS, "vscode", "ssi.tmLanguage.json")))
        patterns = "|".join(f"(?:{pattern['match']})" for pattern in grammar["patterns"])
        rest = re.sub(patterns, "", text_of(example("junction.ssi")), flags=re.MULTILINE)
        self.assertEqual(rest.strip(), "")
        for name in ("package.json", "language.json"):
            json.loads(text_of(os.path.join(EDITORS, "vscode", name)))


class Vim(LookCase):
    def test_the_syntax_over_all_examples(self):
        vim = find("vim", "the Vim syntax over the examples", "vim")
        with tempfile.TemporaryDirectory() as folder:
            for path in glob.glob(os.path.join(HERE, "examples", "*.ssi")):
                script, out = os.path.join(folder, "script.vim"), os.path.join(folder, "out")
                with open(script, "w", encoding="utf-8") as file:
                    file.write(VIM % (EDITORS, path, out))
                words = [vim, "-Nes", "-u", "NONE", "-i", "NONE", "-S", script]
                run = subprocess.run(words, stdout=subprocess.PIPE, stderr=subprocess.STDOUT, timeout=60)
                self.assertEqual(run.returncode, 0, run.stdout)
                self.assertEqual(text_of(out), "ssi\nlook --faults %:S\n\n", path)

    def test_make_jumps_to_the_faults(self):
        vim = find("vim", "the faults as Vim jumps to them", "vim")
        path, out = example("junction_faults.ssi"), os.path.join(self.folder, "out")
        script = os.path.join(self.folder, "script.vim")
        with open(script, "w", encoding="utf-8") as file:
            file.write(MAKE % (LOOK, EDITORS, path, out))
        words = [vim, "-Nes", "-u", "NONE", "-i", "NONE", "-S", script]
        subprocess.run(words, stdout=subprocess.PIPE, stderr=subprocess.STDOUT, timeout=60, cwd=self.folder)
        wanted = [line.split(" ")[1] for line in text_of(example("junction_faults.faults")).splitlines()]
        self.assertEqual(text_of(out).splitlines(), wanted)


if __name__ == "__main__":
    unittest.main()
