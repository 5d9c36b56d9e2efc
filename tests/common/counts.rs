//! What a builder counts.

use wenc::ComponentBuilder;
use wenc::tree::Space;

/// How many items there are in each index space: by its value, and by the call of its name.
pub fn counts(b: &ComponentBuilder) -> [u32; 13] {
    let by_name = [
        b.core_module_count(),
        b.core_func_count(),
        b.core_type_count(),
        b.core_memory_count(),
        b.core_table_count(),
        b.core_instance_count(),
        b.core_tag_count(),
        b.core_global_count(),
        b.func_count(),
        b.instance_count(),
        b.value_count(),
        b.component_count(),
        b.type_count(),
    ];
    assert_eq!(Space::ALL.map(|space| b.count(space)), by_name);
    by_name
}
