# Completion of palmheap's words in bash.
_palmheap() {
    local word=${COMP_WORDS[COMP_CWORD]}
    local names='AlreadyExists BadChunk BadDirectory BadDirectorySlot BadEntry BadFile BadFixedOwner BadHeader BadId BadInfo BadMagic BadName BadOffset BadPadding BadReserved BadSize BadSlotCount BadTable BadWord ChainedList ChunkFixed ChunkLocked ChunkNotLocked ChunkWithoutSlot DuplicateId EmptyName EmptyPart IndexOutOfRange InvalidCategory InvalidHandle InvalidName InvalidOwner Lent LockOverflow NoInfoBlock NoSuchDatabase NotEnoughSpace NotRecordDatabase NotResourceDatabase OutOfBounds OutOfMemory OwnedByDatabase ReadOnly RecordBusy RecordDeleted ResourceNotFound SameName SharedChunk SlotMismatch StrayChunk TooLarge TooManyEntries TooShort Truncated UniqueIdNotFound UnknownCommand WrongCount busy filler ids name order'
    if [ "$COMP_CWORD" = 1 ] || { [ "$COMP_CWORD" = 2 ] && [ "${COMP_WORDS[1]}" = help ]; }; then
        compopt +o filenames
        mapfile -t COMPREPLY < <(compgen -W 'list canonical salvage get put unpack pack new check map run migrate import databases export explain help --help --version' -- "$word")
    elif [[ ${COMP_WORDS[1]} == explain ]]; then
        mapfile -t COMPREPLY < <(compgen -W "$names --help" -- "$word")
    elif [[ $word == -* && ${COMP_WORDS[1]} =~ ^(check|databases)$ ]]; then
        mapfile -t COMPREPLY < <(compgen -W '--json --help' -- "$word")
    elif [[ $word == -* && ${COMP_WORDS[1]} == list ]]; then
        mapfile -t COMPREPLY < <(compgen -W '--json --path --help' -- "$word")
    elif [[ ${COMP_WORDS[COMP_CWORD - 1]} == --keep && ${COMP_WORDS[1]} == canonical ]]; then
        mapfile -t COMPREPLY < <(compgen -W 'ids filler order ids,filler ids,order filler,order ids,filler,order' -- "$word")
    elif [[ $word == -* && ${COMP_WORDS[1]} == canonical ]]; then
        mapfile -t COMPREPLY < <(compgen -W '--check --keep --path --help' -- "$word")
    elif [[ $word == -* && ${COMP_WORDS[1]} == unpack ]]; then
        mapfile -t COMPREPLY < <(compgen -W '--exact --help' -- "$word")
    elif [[ $word == -* && ${COMP_WORDS[1]} == salvage ]]; then
        mapfile -t COMPREPLY < <(compgen -W '--exact-ids --help' -- "$word")
    elif [[ $word == -* && ${COMP_WORDS[1]} == run ]]; then
        mapfile -t COMPREPLY < <(compgen -W '--numbers --strict --help' -- "$word")
    elif [[ $word == -* && ${COMP_WORDS[1]} == import ]]; then
        mapfile -t COMPREPLY < <(compgen -W '--size --slots --help' -- "$word")
    else
        mapfile -t COMPREPLY < <(compgen -f -- "$word")
    fi
}
complete -o filenames -F _palmheap palmheap
