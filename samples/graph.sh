# Makes graph.dat, by scripts/record_in_qemu.py.
# shellcheck shell=sh
# All symbols of the kernel would make a file of 4 MB: it has those alone that the functions to be traced may have.
awk '$3 ~ /^(vfs_|pipe_|security_file_|path_|do_filp_open$|schedule$|__wake_up|copy_page_|generic_perform_write$|shmem_)/' /proc/kallsyms > /tmp/symbols
mount --bind /tmp/symbols /proc/kallsyms
echo 'dd if=/dev/zero bs=4096 count=6 2> /dev/null | cat > /tmp/copy; cat /tmp/copy > /dev/null' > /tmp/load
trace-cmd record --file-version 6 -p function_graph -e sched:sched_switch -l 'vfs_*' -l 'pipe_*' -l 'security_file_*' -l 'path_*' \
    -l do_filp_open -l schedule -l '__wake_up*' -l 'copy_page_*' -l generic_perform_write -l 'shmem_*' -o graph.dat sh /tmp/load
