/* The annotations that the kit's tools read and a compiler doesn't: each stands for nothing. */
#ifndef KZ_SAL_H
#define KZ_SAL_H

/* ---- Parameters. */
#define _In_
#define _In_opt_
#define _In_z_
#define _In_opt_z_
#define _In_reads_(n)
#define _In_reads_opt_(n)
#define _In_reads_bytes_(n)
#define _In_reads_bytes_opt_(n)
#define _In_reads_z_(n)
#define _In_reads_or_z_(n)
#define _In_reads_to_ptr_(p)
#define _In_range_(low, high)
#define _In_bytecount_(n)
#define _In_count_(n)
#define _In_function_class_(x)
#define _Out_
#define _Out_opt_
#define _Out_writes_(n)
#define _Out_writes_opt_(n)
#define _Out_writes_z_(n)
#define _Out_writes_bytes_(n)
#define _Out_writes_bytes_opt_(n)
#define _Out_writes_bytes_to_(n, m)
#define _Out_writes_bytes_to_opt_(n, m)
#define _Out_writes_bytes_all_(n)
#define _Out_writes_to_(n, m)
#define _Out_writes_to_opt_(n, m)
#define _Out_writes_all_(n)
#define _Out_range_(low, high)
#define _Inout_
#define _Inout_opt_
#define _Inout_z_
#define _Inout_updates_(n)
#define _Inout_updates_opt_(n)
#define _Inout_updates_z_(n)
#define _Inout_updates_bytes_(n)
#define _Inout_updates_bytes_opt_(n)
#define _Inout_updates_bytes_to_(n, m)
#define _Inout_updates_to_(n, m)
#define _Inout_updates_all_(n)
#define _Outptr_
#define _Outptr_opt_
#define _Outptr_result_maybenull_
#define _Outptr_opt_result_maybenull_
#define _Outptr_result_nullonfailure_
#define _Outptr_result_bytebuffer_(n)
#define _Outptr_result_bytebuffer_maybenull_(n)
#define _Outptr_result_buffer_(n)
#define _Outptr_result_z_
#define _Outref_
#define _COM_Outptr_
#define _Reserved_
#define _Const_
#define _Flt_CompletionContext_Outptr_
#define _Flt_ConnectionCookie_Outptr_

/* ---- Results, conditions and fields. */
#define _Ret_maybenull_
#define _Ret_notnull_
#define _Ret_null_
#define _Ret_range_(low, high)
#define _Ret_valid_
#define _Ret_z_
#define _Ret_writes_(n)
#define _Ret_writes_bytes_(n)
#define _Ret_writes_bytes_maybenull_(n)
#define _Result_nullonfailure_
#define _Result_zeroonfailure_
#define _Return_type_success_(x)
#define _Success_(x)
#define _On_failure_(x)
#define _Always_(x)
#define _Check_return_
#define _Check_return_opt_
#define _Must_inspect_result_
#define _Must_inspect_impl_
#define _Use_decl_annotations_
#define _Null_
#define _Notnull_
#define _Maybenull_
#define _Null_terminated_
#define _NullNull_terminated_
#define _Valid_
#define _Notvalid_
#define _Maybevalid_
#define _Readable_bytes_(n)
#define _Readable_elements_(n)
#define _Writable_bytes_(n)
#define _Writable_elements_(n)
#define _Struct_size_bytes_(n)
#define _Field_size_(n)
#define _Field_size_opt_(n)
#define _Field_size_part_(n, m)
#define _Field_size_full_(n)
#define _Field_size_bytes_(n)
#define _Field_size_bytes_opt_(n)
#define _Field_size_bytes_part_(n, m)
#define _Field_size_bytes_part_opt_(n, m)
#define _Field_size_bytes_full_(n)
#define _Field_size_bytes_full_opt_(n)
#define _Field_range_(low, high)
#define _Field_z_
#define _Points_to_data_
#define _Literal_
#define _Notliteral_
#define _Notref_
#define _Deref_out_range_(low, high)
#define _Deref_in_range_(low, high)
#define _Deref_ret_range_(low, high)
#define _Deref_pre_valid_
#define _Deref_post_valid_
#define _Printf_format_string_
#define _Scanf_format_string_
#define _Format_string_impl_(a, b)
#define _Pre_
#define _Pre_valid_
#define _Pre_invalid_
#define _Pre_notnull_
#define _Pre_maybenull_
#define _Pre_null_
#define _Pre_satisfies_(x)
#define _Pre_equal_to_(x)
#define _Pre_unknown_
#define _Pre_readable_size_(n)
#define _Pre_readable_byte_size_(n)
#define _Pre_writable_size_(n)
#define _Pre_writable_byte_size_(n)
#define _Pre_opt_valid_
#define _Post_
#define _Post_valid_
#define _Post_invalid_
#define _Post_ptr_invalid_
#define _Post_notnull_
#define _Post_maybenull_
#define _Post_null_
#define _Post_satisfies_(x)
#define _Post_equal_to_(x)
#define _Post_writable_size_(n)
#define _Post_writable_byte_size_(n)
#define _Post_readable_size_(n)
#define _Post_readable_byte_size_(n)
#define _Post_z_
#define _Post_same_lock_(a, b)
#define _Post_defensive_
#define _Pre_defensive_
#define _Prepost_z_
#define _Prepost_opt_z_
#define _Unchanged_(x)
#define _When_(condition, what)
#define _At_(what, which)
#define _At_buffer_(a, b, c, d)
#define _Group_(x)
#define _Unreferenced_parameter_
#define _Static_assertion_(x)
#define _Analysis_assume_(x) ((void)0)
#define _Analysis_assume_lock_acquired_(x)
#define _Analysis_assume_lock_released_(x)
#define _Analysis_assume_lock_held_(x)
#define _Analysis_assume_lock_not_held_(x)
#define _Analysis_assume_same_lock_(a, b)
#define _Analysis_mode_(x)
#define _Analysis_noreturn_
#define _Guarded_by_(x)
#define _Interlocked_
#define _Interlocked_operand_
#define _Write_guarded_by_(x)
#define _Has_lock_kind_(x)
#define _Has_lock_level_(x)
#define _Lock_level_order_(a, b)
#define _Create_lock_level_(x)
#define _Acquires_lock_(x)
#define _Acquires_nonreentrant_lock_(x)
#define _Acquires_shared_lock_(x)
#define _Acquires_exclusive_lock_(x)
#define _Releases_lock_(x)
#define _Releases_nonreentrant_lock_(x)
#define _Releases_shared_lock_(x)
#define _Releases_exclusive_lock_(x)
#define _Requires_lock_held_(x)
#define _Requires_lock_not_held_(x)
#define _Requires_shared_lock_held_(x)
#define _Requires_exclusive_lock_held_(x)
#define _Requires_no_locks_held_
#define _Global_critical_region_
#define _Global_cancel_spin_lock_
#define _Function_class_(x)
#define __analysis_assume(x) ((void)0)
#define __analysis_noreturn
#define __annotation(...) ((void)0)

/* ---- The same of an older day. */
#define __in
#define __in_opt
#define __in_bcount(n)
#define __in_bcount_opt(n)
#define __in_ecount(n)
#define __in_ecount_opt(n)
#define __in_z
#define __out
#define __out_opt
#define __out_bcount(n)
#define __out_bcount_opt(n)
#define __out_bcount_part(n, m)
#define __out_bcount_part_opt(n, m)
#define __out_ecount(n)
#define __out_ecount_opt(n)
#define __inout
#define __inout_opt
#define __inout_bcount(n)
#define __inout_bcount_opt(n)
#define __inout_ecount(n)
#define __deref_out
#define __deref_out_opt
#define __deref_opt_out
#define __deref_opt_out_opt
#define __deref_out_bcount(n)
#define __deref_out_bcount_opt(n)
#define __deref_out_ecount(n)
#define __deref_inout
#define __deref_inout_opt
#define __reserved
#define __checkReturn
#define __bcount(n)
#define __ecount(n)
#define __field_bcount(n)
#define __field_bcount_opt(n)
#define __field_bcount_part(n, m)
#define __field_ecount(n)
#define __nullterminated
#define __callback
#define __format_string
#define __notnull
#define __maybenull
#define __success(x)
#define __drv_when(a, b)
#define __drv_at(a, b)

#endif
