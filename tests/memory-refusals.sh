#!/bin/sh
# Shows that 'out of memory' is answered only where an allocation was refused: by `?`, by a `From`
# of an allocation's error, or where an error of a call becomes another one.
#
#     tests/memory-refusals.sh
#
# No contract says so: a call may always answer OutOfMemory, since no clause can name what an
# allocation answered. So this reads the sources as text. It prints each line of a crate of the
# program that makes such an answer by other means and is not listed below, and has status 1 where
# there is one.
cd "$(dirname "$0")/.." || exit 2

# Lines that may: a sum or an offset that does not fit 64 bits counts as one too many for the
# memory, a machine or a world that ended without memory is told so, and so is an error of the
# command line, the name of a share's file that could not be made, which wants memory alone, reads
# of shares that say that they were refused memory, and a client's turn that ended so.
allowed=$(cat <<'END'
share_store/src/memory.rt:return Err(StoreError::OutOfMemory);
request_record/src/entries.rt:return Err(AllocError);
download_file/src/reader.rt:return Err(AllocError);
share_files/src/changes.rt:_ => Err(DiskError::OutOfMemory),
share_files/src/changes.rt:return Err(DiskError::OutOfMemory);
grid_rules/src/ending.rt:DownloadStatus::Failed => Err(Fault::OutOfMemory),
grid_faults/src/fault.rt:return Fault::OutOfMemory;
grid_commands/src/lib.rt:_ => report(alloc, err, &Fault::OutOfMemory),
grid_repairs/src/made_shares.rt:PieceFault::SourceFault if lacks_memory => PieceFault::OutOfMemory,
grid_repairs/src/remaking.rt:Fault::OutOfMemory
grid_repairs/src/standing.rt:check.report(alloc)?.ok_or(Fault::OutOfMemory)
grid_stores/src/scrub_telling.rt:return Err(Failure::Fault(Fault::OutOfMemory));
grid_serve/src/fault.rt:return ServeFault::Fault(Fault::OutOfMemory);
grid_serving/src/clients.rt:self.note(node, Why::OutOfMemory);
grid_serving/src/clients.rt:Err(AllocError)
grid_main/src/main.rt:let error = io::Error::from(io::ErrorKind::OutOfMemory);
upload_core/src/ending.rt:*status = UploadStatus::Failed(PieceFault::OutOfMemory);
world_operations/src/status.rt:Life::Refused => Status::Failed(PieceFault::OutOfMemory),
world_operations/src/status.rt:DownloadStatus::Failed => Status::Failed(PieceFault::OutOfMemory),
world_operations/src/status.rt:CheckStatus::Failed => Status::Failed(PieceFault::OutOfMemory),
world/src/world.rt:Err(WorldError::OutOfMemory)
END
)

told=$(find $(tools/crates-below grid_main | sed 's|.*|crates/&/src|') -name '*.rt' |
    sort | xargs awk '
    FNR == 1 { before = "" }
    {
        line = $0
        sub(/^ +/, "", line)
        sub(/ *\/\/.*/, "", line)
        if (made(line, before)) {
            file = FILENAME
            sub(/^crates\//, "", file)
            print file ":" line
        }
        if (line != "") before = line
    }
    # Does a line make the answer? `before` is the line before it. Clauses, declarations and texts
    # make none, nor does an arm or a map_err that takes an error of a call, or an outcome that is
    # one of memory.
    function made(line, before,    arrow) {
        if (line !~ /(OutOfMemory|AllocError)/) return 0
        if (line ~ /(≡|→|λ|⊎|ensures|requires|ghost)/) return 0
        if (line ~ /^(pub )?(use|impl|fn|type|#\[|\)|})/ || line ~ /-> /) return 0
        if (line ~ /outcome: |error: |Result</) return 0
        if (line ~ /^(pub )?OutOfMemory,$/ || line ~ /AllocError[,}]/) return 0
        arrow = index(line, "=>")
        if (arrow && substr(line, arrow) !~ /(OutOfMemory|AllocError)/) return 0
        if (arrow && substr(line, 1, arrow) ~ /(Err\(|OutOfMemory)/) return 0
        if (line ~ /\.map_err\(/ || (line ~ /^\|/ && before ~ /map_err\($/)) return 0
        if (line ~ /[!=]= .*OutOfMemory/ || line ~ /matches!/) return 0
        if (line ~ /^[A-Za-z]+::OutOfMemory$/ && before ~ /,$/) return 0
        return before !~ /fn from\(/
    }')
listed=$(echo "$told" | grep -vxF -- "$allowed")
if [ -n "$listed" ]; then
    echo "$listed"
    exit 1
fi
echo 'each answer of OutOfMemory is one of an allocation'
