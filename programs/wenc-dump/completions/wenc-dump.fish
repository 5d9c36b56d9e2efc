# Completions of wenc-dump for fish.

set -l kinds custom core-module core-instance core-type component instance alias type \
    canonical-function start import export function table memory global element code data \
    data-count tag

complete -c wenc-dump -s x -l hex -d 'Also print the bytes of items, in hexadecimal'
complete -c wenc-dump -l check -d 'Also mark indices that are out of range'
complete -c wenc-dump -l wit -d 'Print the world of components, as WIT'
complete -c wenc-dump -l section -x -a "$kinds" -d 'Print only sections of this kind'
complete -c wenc-dump -l summary -d 'Print sections without their items'
complete -c wenc-dump -l at -x -d 'Say what the byte at this offset is'
complete -c wenc-dump -l html -d 'Print a page that shows the bytes, of one file or two'
complete -c wenc-dump -l json -d 'Print JSON, a line for each file'
complete -c wenc-dump -l compact -d 'Leave out of JSON what is null'
complete -c wenc-dump -l color -x -a 'always auto never' -d 'Colour the output'
complete -c wenc-dump -l width -x -d 'Fold items that do not fit in so many columns'
complete -c wenc-dump -s o -l output -r -d 'Print to a file'
complete -c wenc-dump -s h -l help -d 'Print the help'
complete -c wenc-dump -s V -l version -d 'Print the version'
