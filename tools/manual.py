"""The pages wivakkol(1), wivakkol(3) and wivakkol-table(5), and what shells complete: made from the command's own tables of commands and options and from the headers.

usage: python3 tools/manual.py 1 | 3 | 5 | bash | zsh | fish    (the page or the script goes to standard output)
"""
import functools
import pathlib
import re
import runpy
import sys

TOP = pathlib.Path(__file__).resolve().parent.parent
HEADERS = ['wivakkol.h', *sorted(path.name for path in (TOP / 'include').glob('wivakkol_*.h'))]


@functools.lru_cache(maxsize=None)
def command():
    return runpy.run_path(str(TOP / 'tools/wivakkol'))


def options_of(name):
    found = command()['COMMANDS'][name]
    return found.needs + found.may + command()['ALWAYS']


# Manual pages

def plain(text):
    """Text as roff takes it."""
    text = text.replace('\\', '\\e').replace('-', '\\-').replace("'", '\\(aq').replace('−', '\\-').replace('·', '*').replace('`', '')
    return re.sub(r'^\.', r'\\&.', text, flags=re.M)


def head(name, section):
    return '.TH %s %d "" "wivakkol %s" "Wivakkol"\n' % (name.upper(), section, command()['VERSION'])


def tagged(tag, text):
    return '.TP\n.B %s\n%s\n' % (plain(tag), plain(text))


def on_the_command():
    shown, commands, refusals = command()['shown'], command()['COMMANDS'], command()['REFUSALS']
    page = head('wivakkol', 1) + '.SH NAME\nwivakkol \\- checks job tables, finds quotas and limits for them, and lists their runs\n'
    page += '.SH SYNOPSIS\n.B wivakkol\n.I COMMAND\n[OPTIONS]\n.IR TABLE \" ...\"\n.br\n.B wivakkol help\n[\\fICOMMAND\\fR | \\fINUMBER\\fR]\n.br\n.B wivakkol \\-\\-version\n'
    page += '.SH DESCRIPTION\n' + plain('Takes tables by file name, texts or bytes, and gives them to proved programs; - is standard input. What is refused is said on standard error with '
                                        'file and line.') + '\n.SH COMMANDS\n'
    for name, found in commands.items():
        needs = ''.join(' ' + shown(option) for option in found.needs)
        may = ''.join(' [%s]' % shown(option) for option in found.may)
        page += tagged(name + needs + may, found.does)
    page += '.SH OPTIONS\n' + ''.join(tagged(shown(option), found.what) for option, found in command()['OPTIONS'].items())
    page += '.SH EXIT STATUS\n' + tagged('0', 'answered') + tagged('1', 'refused, by a check or by the assembler') \
        + tagged('2', 'wrong usage, or reading, writing or a program failed')
    page += '.SH EXAMPLE\n.nf\n' + plain('wivakkol list -p 2 -K 6 e.text') + '\n.fi\n'
    page += '.SH REFUSALS\n' + ''.join(tagged(str(number), '%s; %s' % (found.meaning, found.advice)) for number, found in sorted(refusals.items()))
    return page + '.SH SEE ALSO\n.BR wivakkol (3),\n.BR wivakkol\\-table (5)\n'


def calls_of(header):
    """The calls of a header: what is declared, and the first sentence of the comment above it. Those on parts of a struct, ..._on, and what a header keeps to itself, ..._, are left out."""
    text = (TOP / 'include' / header).read_text()
    found = re.findall(r'/\*((?:(?!\*/).)*)\*/\n((?:(?:static inline )?(?:const char \*|\w+ )\w+\([^;{]*\)(?:;|\n\{)\n?)+)', text, re.S)
    for comment, declared in found:
        sentence = re.split(r'(?<=[a-z\])])[.:](?:\s|$)', ' '.join(re.sub(r'\n \*', ' ', comment).split()))[0] + '.'
        for one in re.findall(r'(?:static inline )?((?:const char \*|\w+ )(\w+)\([^;{]*\))', declared):
            if not one[1].endswith(('_on', '_')):
                yield ' '.join(one[0].split()) + ';', sentence


def on_the_calls():
    page = head('wivakkol', 3) + '.SH NAME\nwivakkol \\- job tables and their runs, from C\n.SH SYNOPSIS\n.nf\n'
    page += ''.join('.B #include <wivakkol/%s>\n' % plain(name) for name in HEADERS)
    page += '\n' + plain('cc program.c $(pkg-config --cflags --libs wivakkol)') + '\n.fi\n.SH DESCRIPTION\n'
    page += plain('The calls work on memory that the caller lends, and have neither heap nor state. A call returns 0, or the number of the refusal, which wivakkol_refusal_words puts into words; its '
                  'row has the place and the values. The headers say what a caller must keep to. The archive is for x86-64 and is proved to do what its definitions say.') + '\n'
    for header in HEADERS:
        page += '.SS %s\n' % plain(header)
        for declared, sentence in calls_of(header):
            page += '.TP\n.B "%s"\n%s\n' % (plain(declared), plain(sentence))
    return page + '.SH SEE ALSO\n.BR wivakkol (1),\n.BR wivakkol\\-table (5)\n'


def on_tables():
    return (TOP / 'docs/man/wivakkol-table.5').read_text().replace('@VERSION@', command()['VERSION'])


# Shells

def for_bash():
    cases = ''.join('        %s) words="%s" ;;\n' % (name, ' '.join(options_of(name))) for name in command()['COMMANDS'])
    return '''# completion of wivakkol for bash
_wivakkol() {
    local word=${COMP_WORDS[COMP_CWORD]} words=
    if [ "$COMP_CWORD" -eq 1 ]; then
        COMPREPLY=($(compgen -W "%s" -- "$word"))
        return
    fi
    case ${COMP_WORDS[1]} in
        help) COMPREPLY=($(compgen -W "%s" -- "$word")); return ;;
%s    esac
    case $word in
        -*) COMPREPLY=($(compgen -W "$words" -- "$word")) ;;
        *) COMPREPLY=($(compgen -f -- "$word")) ;;
    esac
}
complete -o filenames -F _wivakkol wivakkol
''' % (' '.join([*command()['COMMANDS'], 'help', '--version', '--help']), ' '.join(command()['COMMANDS']), cases)


def quoted(text):
    return text.replace("'", "'\\''")


def first_words(name):
    return re.split(r'[.:] ', command()['COMMANDS'][name].does)[0].rstrip('.')


def for_zsh():
    rows = ''.join("        '%s:%s'\n" % (name, quoted(first_words(name)).replace(':', '\\:')) for name in command()['COMMANDS'])
    cases = ''
    for name in command()['COMMANDS']:
        words = ' '.join("'%s[%s]%s'" % (option, re.sub(r'([\[\]:])', r'\\\1', quoted(command()['OPTIONS'][option].what)), zsh_value(option)) for option in options_of(name))
        cases += '        %s) _arguments %s \'*:table:_files\' ;;\n' % (name, words)
    return '''#compdef wivakkol
# completion of wivakkol for zsh
_wivakkol() {
    local -a commands
    commands=(
%s        'help:says more of a command or of a refusal'
    )
    if (( CURRENT == 2 )); then
        _describe command commands
        return
    fi
    local command=$words[2]
    shift words
    (( CURRENT-- ))
    case $command in
        help) _describe command commands ;;
%s    esac
}
_wivakkol "$@"
''' % (rows, cases)


def zsh_value(option):
    value = command()['OPTIONS'][option].value
    return '%s:%s:%s' % (':' if value.startswith('[') else '', value.strip('[]'), '_files' if value == 'FILE' else '( )') if value else ''


def for_fish():
    rows = 'complete -c wivakkol -n __fish_use_subcommand -f -a help -d \'says more of a command or of a refusal\'\n'
    for name in command()['COMMANDS']:
        rows += "complete -c wivakkol -n __fish_use_subcommand -f -a %s -d '%s'\n" % (name, first_words(name).replace("'", "\\'"))
        for option in options_of(name):
            found = command()['OPTIONS'][option]
            kind = '-l ' + option[2:] if option.startswith('--') else '-s ' + option[1:]
            rows += "complete -c wivakkol -n '__fish_seen_subcommand_from %s' %s%s -d '%s'\n" % (name, kind, ' -r' if found.value and option != '--rounds' else '', found.what.replace("'", "\\'"))
    return '# completion of wivakkol for fish\n' + rows


MADE = {'1': on_the_command, '3': on_the_calls, '5': on_tables, 'bash': for_bash, 'zsh': for_zsh, 'fish': for_fish}


def main():
    if len(sys.argv) != 2 or sys.argv[1] not in MADE:
        sys.exit(__doc__)
    sys.stdout.buffer.write(MADE[sys.argv[1]]().encode())


if __name__ == '__main__':
    main()
