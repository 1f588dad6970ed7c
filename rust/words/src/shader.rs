//! A row in the words of GLSL (`GL_KHR_memory_scope_semantics`) and of SPIR-V:
//! scopes, memory semantics and memory operands by their names.

use second::table::*;

const SCOPES: [&str; 5] = [
    "Invocation",
    "Subgroup",
    "Workgroup",
    "QueueFamily",
    "Device",
];
/// GLSL's and SPIR-V's names of the classes: a storage buffer is Uniform.
const STORAGE: [(&str, &str); 4] = [
    ("gl_StorageSemanticsBuffer", "UniformMemory"),
    ("gl_StorageSemanticsShared", "WorkgroupMemory"),
    ("gl_StorageSemanticsImage", "ImageMemory"),
    ("gl_StorageSemanticsOutput", "OutputMemory"),
];
const ORDERS: [&str; 4] = ["Relaxed", "Acquire", "Release", "AcquireRelease"];
const SHARED: u8 = 1;
const IMAGE: u8 = 2;
const OUTPUT: u8 = 3;

fn scope_name(scope: u8) -> &'static str {
    SCOPES.get(usize::from(scope)).copied().unwrap_or("?")
}

fn order_name(order: u8) -> &'static str {
    ORDERS.get(usize::from(order)).copied().unwrap_or("?")
}

/// The row's instruction in GLSL.
pub fn glsl(row: Row) -> String {
    if row.is_plain() {
        return plain_glsl(row);
    }
    let scope = format!("gl_Scope{}", scope_name(row.scope));
    let semantics = format!("{scope}, {}, {}", glsl_storage(row), glsl_semantics(row));
    if row.is_control_barrier() {
        let execution = scope_name(row.class);
        return format!("`controlBarrier(gl_Scope{execution}, {semantics})`");
    }
    let (prefix, place) = if row.class == IMAGE {
        ("imageAtomic", "image, place")
    } else {
        ("atomic", "memory")
    };
    match row.kind {
        ATOMIC_READ => format!("`{prefix}Load({place}, {semantics})`"),
        ATOMIC_WRITE => format!("`{prefix}Store({place}, value, {semantics})`"),
        ATOMIC_RMW => format!("`{prefix}Exchange({place}, value, {semantics})`"),
        _ => format!("`memoryBarrier({semantics})`"),
    }
}

/// A plain access and the qualifier of what it goes to. Only buffers and
/// images have one.
fn plain_glsl(row: Row) -> String {
    let what = match (row.class, row.writes()) {
        (IMAGE, true) => "an `imageStore` to an image",
        (IMAGE, false) => "an `imageLoad` of an image",
        (SHARED, true) => "a store to a `shared` variable",
        (SHARED, false) => "a load of a `shared` variable",
        (OUTPUT, true) => "a store to an `out` variable",
        (OUTPUT, false) => "a load of an `out` variable",
        (_, true) => "a store to a variable",
        (_, false) => "a load of a variable",
    };
    match row.class {
        SHARED => format!("{what}, which takes no qualifier: glslang makes such accesses non-private, available and visible in workgroup scope itself"),
        OUTPUT => format!("{what}, which takes no qualifier: only SPIR-V can say it"),
        _ if row.makes_available() || row.makes_visible() => {
            let coherent = scope_name(row.scope).to_lowercase();
            format!("{what} declared `{coherent}coherent`")
        }
        _ if row.is_non_private() => format!("{what} declared `nonprivate`"),
        _ => format!("{what} without a memory qualifier"),
    }
}

/// What a program and a device need for a row's instruction.
pub fn needs(row: Row) -> Vec<&'static str> {
    let mut needs = vec![
        "`#extension GL_KHR_memory_scope_semantics : require`",
        "`#pragma use_vulkan_memory_model`",
        "the feature `vulkanMemoryModel`",
    ];
    let has_scope = !row.is_plain() || row.makes_available() || row.makes_visible();
    if has_scope && row.scope == DEVICE {
        needs.push("the feature `vulkanMemoryModelDeviceScope`");
    }
    if row.is_atomic() && row.length == 8 {
        needs.push("`#extension GL_EXT_shader_atomic_int64 : require`");
        needs.push(match row.class {
            SHARED => "the feature `shaderSharedInt64Atomics`",
            _ => "the feature `shaderBufferInt64Atomics`",
        });
    }
    needs
}

fn glsl_storage(row: Row) -> String {
    let named = held(row).map(|(glsl, _)| glsl);
    joined(named.collect(), "gl_StorageSemanticsNone")
}

fn glsl_semantics(row: Row) -> String {
    let mut names = vec![format!("gl_Semantics{}", order_name(row.order))];
    let flags = flags(row).into_iter();
    names.extend(flags.map(|flag| format!("gl_Semantics{flag}")));
    names.join(" | ")
}

fn held(row: Row) -> impl Iterator<Item = (&'static str, &'static str)> {
    let classes = STORAGE.into_iter().enumerate();
    let held = classes.filter(move |(class, _)| row.classes >> class & 1 == 1);
    held.map(|(_, names)| names)
}

fn flags(row: Row) -> Vec<&'static str> {
    let available = row.makes_available().then_some("MakeAvailable");
    let visible = row.makes_visible().then_some("MakeVisible");
    available.into_iter().chain(visible).collect()
}

fn joined(names: Vec<&str>, none: &str) -> String {
    match names.is_empty() {
        true => none.to_string(),
        false => names.join(" | "),
    }
}

/// The row's instruction in SPIR-V, with its scope and semantics or operands.
pub fn spirv(row: Row) -> String {
    let name = spirv_name(row);
    if row.is_plain() {
        return format!("`{name}` with {}", spirv_operands(row));
    }
    let scope = scope_name(row.scope);
    let mut semantics: Vec<&str> = Vec::new();
    if row.order != RELAXED {
        semantics.push(order_name(row.order));
    }
    semantics.extend(held(row).map(|(_, spirv)| spirv));
    semantics.extend(flags(row));
    let semantics = joined(semantics, "None");
    if row.is_control_barrier() {
        let execution = scope_name(row.class);
        return format!("`{name}` with execution scope {execution}, memory scope {scope}, semantics {semantics}");
    }
    format!("`{name}` with scope {scope}, semantics {semantics}")
}

fn spirv_name(row: Row) -> &'static str {
    match (row.kind, row.class == IMAGE) {
        (PLAIN_READ, true) => "OpImageRead",
        (PLAIN_WRITE, true) => "OpImageWrite",
        (PLAIN_READ, false) => "OpLoad",
        (PLAIN_WRITE, false) => "OpStore",
        (ATOMIC_READ, _) => "OpAtomicLoad",
        (ATOMIC_WRITE, _) => "OpAtomicStore",
        (ATOMIC_RMW, _) => "OpAtomicExchange",
        _ if row.is_control_barrier() => "OpControlBarrier",
        _ => "OpMemoryBarrier",
    }
}

/// Memory operands, or those of an image.
fn spirv_operands(row: Row) -> String {
    let noun = if row.class == IMAGE {
        "Texel"
    } else {
        "Pointer"
    };
    let scope = scope_name(row.scope);
    let mut operands = Vec::new();
    if row.makes_available() {
        operands.push(format!("Make{noun}Available {scope}"));
    }
    if row.makes_visible() {
        operands.push(format!("Make{noun}Visible {scope}"));
    }
    if row.is_non_private() {
        operands.push(format!("NonPrivate{noun}"));
    }
    match operands.is_empty() {
        true => "no memory operand".to_string(),
        false => operands.join(" | "),
    }
}
