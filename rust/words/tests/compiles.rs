//! What is said in GLSL and SPIR-V compiles: by glslangValidator, spirv-as and
//! spirv-val where these are installed. Where they aren't, the test says so.

use second::table::*;
use std::collections::BTreeSet;
use std::fs;
use std::path::PathBuf;
use std::process::Command;
use words::{glsl, spirv};

const SHARED: u8 = 1;
const IMAGE: u8 = 2;
/// The semantics of outputs.
const OUTPUT_SET: u8 = 8;

/// Every instruction that a shader may have: each kind with its orders, scopes,
/// sets of classes and flags.
fn instructions() -> Vec<Row> {
    let mut rows = Vec::new();
    for kind in PLAIN_READ..=CONTROL_BARRIER {
        for class in [0, SHARED, IMAGE] {
            for scope in SUBGROUP..=DEVICE {
                let row = Row {
                    kind,
                    class,
                    scope,
                    length: 4,
                    ..Row::default()
                };
                rows.extend(with_orders(row));
            }
        }
    }
    rows
}

fn with_orders(row: Row) -> Vec<Row> {
    if row.is_plain() {
        let flag = if row.writes() { 3 } else { 5 };
        let flags = [(0, 0), (1, 0), (flag, row.scope)];
        let plain = flags.map(|(flags, scope)| Row {
            flags,
            scope,
            ..row
        });
        return plain.to_vec();
    }
    let orders = (RELAXED..=BOTH).filter(|order| match row.kind {
        ATOMIC_READ => order & RELEASE == 0,
        ATOMIC_WRITE => order & ACQUIRE == 0,
        BARRIER => *order != RELAXED,
        _ => true,
    });
    orders
        .flat_map(|order| with_semantics(Row { order, ..row }))
        .collect()
}

/// A row of some order with sets of classes, without flags and with all that it
/// may have.
fn with_semantics(row: Row) -> Vec<Row> {
    let may_have = |bit: u8, flag: u8| if row.order & bit != 0 { flag } else { 0 };
    let most = may_have(RELEASE, MAKE_AVAILABLE) | may_have(ACQUIRE, MAKE_VISIBLE);
    let class = match row.is_control_barrier() {
        true => row.scope.min(WORKGROUP),
        false => row.class,
    };
    let sets: &[u8] = match row.order {
        RELAXED => &[0],
        _ => &[1, 2, 4, 7],
    };
    let rows = sets.iter().flat_map(|classes| {
        [0, most].map(|flags| Row {
            classes: *classes,
            flags,
            class,
            ..row
        })
    });
    rows.collect()
}

/// A folder for what the tools read and write.
fn scratch(name: &str) -> PathBuf {
    let folder = PathBuf::from(env!("CARGO_TARGET_TMPDIR"));
    fs::create_dir_all(&folder).unwrap();
    folder.join(name)
}

/// Runs a tool, if it is installed, which must find nothing wrong.
fn run(tool: &str, words: &[&str]) -> bool {
    let Ok(output) = Command::new(tool).args(words).output() else {
        eprintln!("{tool} isn't installed: what it would check isn't checked");
        return false;
    };
    let told = [output.stdout, output.stderr].concat();
    let told = String::from_utf8_lossy(&told);
    let told: Vec<&str> = told.lines().take(12).collect();
    assert!(output.status.success(), "{tool}: {}", told.join("\n"));
    true
}

/// A statement of a compute shader, and the declaration that it needs.
fn statement(row: Row) -> (String, String) {
    let words = glsl(row);
    if row.is_plain() {
        return plain_statement(row, &words);
    }
    let memory = match row.class {
        SHARED => "(shared_word,",
        _ => "(buffer_word,",
    };
    let call = words.trim_matches('`').replace("(memory,", memory);
    let is_read = row.kind == ATOMIC_READ || row.kind == ATOMIC_RMW;
    let begin = if is_read { "value = " } else { "" };
    (format!("{begin}{call};"), String::new())
}

fn plain_statement(row: Row, words: &str) -> (String, String) {
    let qualifier = words
        .split_once(" declared ")
        .map(|(_, qualifier)| qualifier);
    let qualifier = qualifier.unwrap_or_default().trim_matches('`');
    let name = format!("class_{}_{qualifier}", row.class);
    let (access, declaration) = match row.class {
        SHARED => ("shared_word".to_string(), String::new()),
        IMAGE => (
            name.clone(),
            format!("layout(r32ui, binding = 2) uniform {qualifier} uimage2D {name};"),
        ),
        _ => (
            format!("{name}.word"),
            format!("layout(std430, binding = 3) {qualifier} buffer Block_{name} {{ uint word; }} {name};"),
        ),
    };
    let statement = match (row.class, row.writes()) {
        (IMAGE, true) => format!("imageStore({access}, place, uvec4(value));"),
        (IMAGE, false) => format!("value = imageLoad({access}, place).x;"),
        (_, true) => format!("{access} = value;"),
        (_, false) => format!("value = {access};"),
    };
    (statement, declaration)
}

#[test]
fn glsl_compiles() {
    let (mut statements, mut declarations) = (BTreeSet::new(), BTreeSet::new());
    for row in instructions() {
        let (statement, declaration) = statement(row);
        statements.insert(statement);
        declarations.insert(declaration);
    }
    assert!(statements.len() > 200, "{}", statements.len());
    let mut shader = "#version 450\n#extension GL_KHR_memory_scope_semantics : require\n#pragma use_vulkan_memory_model\nlayout(local_size_x = 8) in;\nlayout(std430, binding = 0) buffer Words { uint buffer_word; };\nlayout(r32ui, binding = 1) uniform uimage2D image;\nshared uint shared_word;\n".to_string();
    shader += &Vec::from_iter(declarations).join("\n");
    shader += "\nvoid main() {\nuint value = 1;\nivec2 place = ivec2(0);\n";
    shader += &Vec::from_iter(statements).join("\n");
    shader += "\nbuffer_word = value;\n}\n";
    let (source, binary) = (scratch("said.comp"), scratch("said.spv"));
    fs::write(&source, shader).unwrap();
    let [source, binary] = [&source, &binary].map(|path| path.to_str().unwrap());
    if run(
        "glslangValidator",
        &["-V", "--target-env", "vulkan1.2", "-o", binary, source],
    ) {
        run("spirv-val", &["--target-env", "vulkan1.2", binary]);
    }
}

/// Outputs of a tessellation control shader, the one that shares them.
#[test]
fn outputs_compile() {
    let mut statements = BTreeSet::new();
    for (kind, scope) in [BARRIER, CONTROL_BARRIER]
        .into_iter()
        .flat_map(|kind| [WORKGROUP, FAMILY, DEVICE].map(|scope| (kind, scope)))
    {
        let row = Row {
            kind,
            scope,
            class: WORKGROUP,
            order: BOTH,
            classes: OUTPUT_SET,
            flags: MAKE_AVAILABLE | MAKE_VISIBLE,
            ..Row::default()
        };
        statements.insert(format!("{};", glsl(row).trim_matches('`')));
    }
    assert_eq!(statements.len(), 6);
    let body = Vec::from_iter(statements).join("\n");
    let shader = format!("#version 450\n#extension GL_KHR_memory_scope_semantics : require\n#pragma use_vulkan_memory_model\nlayout(vertices = 4) out;\nlayout(location = 0) out float word[];\nvoid main() {{\nword[gl_InvocationID] = 1.0;\n{body}\n}}\n");
    let (source, binary) = (scratch("said.tesc"), scratch("tesc.spv"));
    fs::write(&source, shader).unwrap();
    let [source, binary] = [&source, &binary].map(|path| path.to_str().unwrap());
    let words = ["-V", "--target-env", "vulkan1.2", "-o", binary, source];
    if run("glslangValidator", &words) {
        run("spirv-val", &["--target-env", "vulkan1.2", binary]);
    }
}

/// The bits of memory semantics by their names.
const SEMANTICS: [(&str, u32); 9] = [
    ("Acquire", 0x2),
    ("Release", 0x4),
    ("AcquireRelease", 0x8),
    ("UniformMemory", 0x40),
    ("WorkgroupMemory", 0x100),
    ("ImageMemory", 0x800),
    ("MakeAvailable", 0x2000),
    ("MakeVisible", 0x4000),
    ("None", 0),
];
const SCOPES: [(&str, u32); 4] = [
    ("Device", 1),
    ("Workgroup", 2),
    ("Subgroup", 3),
    ("QueueFamily", 5),
];

/// The number of a scope, and those of semantics together.
fn number(words: &str) -> u32 {
    let numbers = words.split(" | ").map(|word| {
        let mut all = SCOPES.iter().chain(&SEMANTICS);
        all.find(|(name, _)| *name == word).expect(word).1
    });
    numbers.sum()
}

/// The instruction in the assembler's form, its constants as `%uN`.
fn assembled(row: Row, result: usize) -> String {
    let words = spirv(row);
    let (name, operands) = words.split_once(" with ").unwrap();
    let name = name.trim_matches('`');
    if row.is_plain() {
        return plain(row, name, operands, result);
    }
    let parts = operands.split(", ");
    let constants = parts.map(|part| {
        let words = part.rsplit_once("scope ").map(|(_, scope)| scope);
        let words = words.or(part.strip_prefix("semantics ")).unwrap();
        format!("%u{}", number(words))
    });
    let constants = Vec::from_iter(constants).join(" ");
    let pointer = match row.class {
        IMAGE => format!("%t{result} = OpImageTexelPointer %pointer_image %image %place %u0\n"),
        _ => String::new(),
    };
    let memory = match row.class {
        SHARED => "%shared".to_string(),
        IMAGE => format!("%t{result}"),
        _ => "%word".to_string(),
    };
    match row.kind {
        ATOMIC_READ => format!("{pointer}%r{result} = {name} %uint {memory} {constants}"),
        ATOMIC_WRITE => format!("{pointer}{name} {memory} {constants} %u1"),
        ATOMIC_RMW => format!("{pointer}%r{result} = {name} %uint {memory} {constants} %u1"),
        _ => format!("{name} {constants}"),
    }
}

fn plain(row: Row, name: &str, operands: &str, result: usize) -> String {
    let (mut masks, mut scope) = (Vec::new(), String::new());
    for operand in operands
        .split(" | ")
        .filter(|word| *word != "no memory operand")
    {
        let (mask, of) = operand.split_once(' ').unwrap_or((operand, ""));
        masks.push(mask);
        if !of.is_empty() {
            scope = format!(" %u{}", number(of));
        }
    }
    let operands = format!("{}{scope}", masks.join("|"));
    let memory = if row.class == SHARED {
        "%shared"
    } else {
        "%word"
    };
    match (row.class, row.writes()) {
        (IMAGE, true) => {
            format!("%i{result} = OpLoad %image_type %image\n{name} %i{result} %place %texel {operands}")
        }
        (IMAGE, false) => format!(
            "%i{result} = OpLoad %image_type %image\n%r{result} = {name} %uvec4 %i{result} %place {operands}"
        ),
        (_, true) => format!("{name} {memory} %u1 {operands}"),
        (_, false) => format!("%r{result} = {name} %uint {memory} {operands}"),
    }
}

/// What stands before the instructions of a module.
const HEAD: &str = "\
OpCapability Shader
OpCapability VulkanMemoryModel
OpCapability VulkanMemoryModelDeviceScope
OpMemoryModel Logical Vulkan
OpEntryPoint GLCompute %main \"main\" %block %image %shared
OpExecutionMode %main LocalSize 8 1 1
OpDecorate %block_type Block
OpMemberDecorate %block_type 0 Offset 0
OpDecorate %block DescriptorSet 0
OpDecorate %block Binding 0
OpDecorate %image DescriptorSet 0
OpDecorate %image Binding 1
%void = OpTypeVoid
%function = OpTypeFunction %void
%uint = OpTypeInt 32 0
%int = OpTypeInt 32 1
%ivec2 = OpTypeVector %int 2
%uvec4 = OpTypeVector %uint 4
%block_type = OpTypeStruct %uint
%pointer_block = OpTypePointer StorageBuffer %block_type
%pointer_word = OpTypePointer StorageBuffer %uint
%pointer_shared = OpTypePointer Workgroup %uint
%image_type = OpTypeImage %uint 2D 0 0 0 2 R32ui
%pointer_of_image = OpTypePointer UniformConstant %image_type
%pointer_image = OpTypePointer Image %uint
%block = OpVariable %pointer_block StorageBuffer
%shared = OpVariable %pointer_shared Workgroup
%image = OpVariable %pointer_of_image UniformConstant
%zero = OpConstant %int 0
%place = OpConstantComposite %ivec2 %zero %zero
";

#[test]
fn spirv_assembles() {
    let distinct: BTreeSet<String> = instructions()
        .into_iter()
        .map(|row| assembled(row, 0))
        .collect();
    let count = distinct.len();
    assert!(count > 200, "{count}");
    let numbered = distinct.iter().enumerate().map(|(result, line)| {
        let line = ["%r", "%t", "%i"].iter().fold(line.clone(), |line, name| {
            line.replace(&format!("{name}0 "), &format!("{name}{result} "))
        });
        line.trim_end().to_string()
    });
    let body = Vec::from_iter(numbered).join("\n");
    let words = body
        .split_whitespace()
        .filter_map(|word| word.strip_prefix("%u"));
    let numbers: BTreeSet<u32> = words
        .filter_map(|word| word.parse().ok())
        .chain([0, 1])
        .collect();
    let mut module = HEAD.to_string();
    for number in numbers {
        module += &format!("%u{number} = OpConstant %uint {number}\n");
    }
    module += "%texel = OpConstantComposite %uvec4 %u1 %u1 %u1 %u1\n%main = OpFunction %void None %function\n%label = OpLabel\n%word = OpAccessChain %pointer_word %block %u0\n";
    module += &format!("{body}\nOpReturn\nOpFunctionEnd\n");
    let (source, binary) = (scratch("said.spvasm"), scratch("assembled.spv"));
    fs::write(&source, module).unwrap();
    let [source, binary] = [&source, &binary].map(|path| path.to_str().unwrap());
    if run(
        "spirv-as",
        &["--target-env", "vulkan1.2", source, "-o", binary],
    ) {
        run("spirv-val", &["--target-env", "vulkan1.2", binary]);
    }
}
