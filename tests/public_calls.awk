# Prints the public calls of a crate's sources that may be refused memory: those that take an allocator, those
# whose result names a refusal or hands a chunk back, and a pool's push and pop. `exported` has the names that the
# crate makes public, each between spaces.

# The type of an `impl` block, and whether the block is of the trait of pools.
/^impl/ {
    of_pool = /WorkPool for/
    type = $0
    sub(/^impl(<[^>]*>)? */, "", type)
    sub(/^.* for /, "", type)
    sub(/[ <{].*/, "", type)
    if (/}$/) type = ""
}

/^}/ { type = "" }

/^ *pub (const )?fn / || (of_pool && type != "" && /^    fn (push|pop)[(<]/) {
    name = $0
    sub(/^.*fn /, "", name)
    sub(/[(<].*/, "", name)
    head = ""
    reading = 1
}

# A head ends where its clauses or its body begin.
reading {
    head = head " " $0
    if (/^ *(requires|ensures|where)/ || /\{$/ || /^ *\{/) {
        reading = 0
        call = type == "" ? name : type "::" name
        first = type == "" ? name : type
        is_public = index(exported, " " first " ")
        is_of_pool = type ~ /Pool$/ && name ~ /^(push|pop)$/
        if (is_public && (head ~ /alloc: Global/ || head ~ /-> Result<.*(Memory|AllocError|Fault|Chunk>)/ || is_of_pool))
            print call
    }
}
