/*
 * rename.h: the model's functions under the names of adderknot.h. With it model.c becomes a vendor's library:
 *
 *     cc -shared -fPIC -Iinclude -include bench/rename.h bench/model.c -o model.so
 */
#define mdl_fresh_store adk_fresh_store
#define mdl_get_capabilities adk_get_capabilities
#define mdl_set_capabilities adk_set_capabilities
#define mdl_create_guest adk_create_guest
#define mdl_create_vcpu adk_create_vcpu
#define mdl_get_state adk_get_state
#define mdl_set_state adk_set_state
#define mdl_run_vcpu adk_run_vcpu
#define mdl_delete_guest adk_delete_guest
#define mdl_guest_clock adk_guest_clock
#define mdl_convert adk_convert
#define mdl_lookup adk_lookup
#define mdl_join adk_join
#define mdl_judge_output adk_judge_output
#define mdl_call adk_call
#define mdl_tally adk_tally
#define mdl_write_record adk_write_record
