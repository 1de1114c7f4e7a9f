# The archives that a host links, for the tests that link them too.
archives=(target/staticlib/libexports.a target/staticlib/libexports_member.a)

# Builds the archive of each crate named, and those that a host links where none is named, unless it is newer than the sources.
built() {
    host/archives.sh "$@"
}
