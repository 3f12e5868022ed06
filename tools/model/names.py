"""Names that tell of code: functions that never return, those that may be called while user access is on, code that is checked as far as
it goes, code that switches tasks, and code that returns for its caller."""

from texts import Refused

NEVER_RETURN = (
    b"panic do_exit make_task_dead kthread_exit __stack_chk_fail fortify_panic usercopy_abort "
    b"__ubsan_handle_builtin_unreachable stop_this_cpu cpu_startup_entry rewind_stack_and_make_dead "
    b"__fortify_panic __ia32_sys_exit __ia32_sys_exit_group __kunit_abort __module_put_and_kthread_exit "
    b"__tdx_hypercall_failed __x64_sys_exit __x64_sys_exit_group arch_cpu_idle_dead bch2_trans_in_restart_error "
    b"bch2_trans_restart_error bch2_trans_unlocked_error cpu_bringup_and_idle do_group_exit do_task_dead "
    b"ex_handler_msr_mce hlt_play_dead hv_ghcb_terminate kthread_complete_and_exit kunit_try_catch_throw "
    b"machine_real_restart mpt_halt_firmware nmi_panic_self_stop panic_smp_self_stop rest_init rust_begin_unwind "
    b"rust_helper_BUG sev_es_terminate snp_abort start_kernel x86_64_start_kernel x86_64_start_reservations "
    b"xen_cpu_bringup_again xen_start_kernel __reiserfs_panic"
).split()
ACCESS_SAFE = (
    b"__fentry__ rep_movs_alternative rep_stos_alternative __copy_user_nocache copy_mc_fragile "
    b"copy_mc_enhanced_fast_string ftrace_likely_update"
).split()
LOOSE = (
    b"asm_exc_nmi entry_SYSCALL_compat return_to_handler rewind_stack_and_make_dead wakeup_long64 "
    b"sev_verify_cbit sme_encrypt_execute restore_registers srso_alias_safe_ret"
).split()
SWITCHING = [b"__switch_to_asm"]
# A names file adds none to these.
RETURNING = {b"srso_safe_ret", b"srso_alias_safe_ret", b"retbleed_return_thunk"}


class Names:
    """The built-in names, with those of a names file."""

    def __init__(self, names_file: bytes = b""):
        self.never_return, self.access_safe = set(NEVER_RETURN), set(ACCESS_SAFE)
        self.loose, self.switching = set(LOOSE), set(SWITCHING)
        lists = {b"noreturn": self.never_return, b"uaccess": self.access_safe, b"loose": self.loose, b"switch": self.switching}
        for number, line in enumerate(names_file.split(b"\n"), 1):
            if line == b"" or line.startswith(b"#"):
                continue
            word, *rest = line.split(b" ")
            if word not in lists:
                raise Refused(f"names file line {number}: bad word")
            if len(rest) != 1 or not rest[0] or not all(0x21 <= byte <= 0x7E for byte in rest[0]):
                raise Refused(f"names file line {number}: bad name")
            lists[word].add(rest[0])
