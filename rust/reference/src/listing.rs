//! The listing of a formula's stream code, as the listing program prints it.

use crate::code::{Code, Instruction, StreamId, Transducer};
use crate::formula::read_formula;
use crate::refusal::Refusal;
use crate::translate::translate;
use crate::types::check_formula;

/// The listing of a formula, where so many bytes are lent for it.
pub fn list(formula: &[u8], bytes_lent: usize) -> Result<String, Refusal> {
    let formula = read_formula(formula)?;
    check_formula(&formula)?;
    let program = translate(&formula);
    let mut text = String::new();
    write_code(&program.code, &mut text);
    text.push_str(&format!("result {}\n", tree_text(&program.result)));
    if text.len() > bytes_lent {
        return Err(Refusal::new(10, text.len()));
    }
    Ok(text)
}

fn write_code(code: &Code, text: &mut String) {
    for instruction in code {
        match instruction {
            Instruction::Define { id, transducer } => {
                let name = name(transducer);
                let operands = ids_text(&transducer.operands());
                text.push_str(&format!("s{} := {name}({operands})\n", id.0));
            }
            Instruction::WithCtrl { outputs, control, inputs, body } => {
                let (outputs, inputs) = (ids_text(outputs), ids_text(inputs));
                let control = control.0;
                text.push_str(&format!("[{outputs}] := WithCtrl(s{control},[{inputs}]) {{\n"));
                write_code(body, text);
                text.push_str("}\n");
            }
        }
    }
}

fn name(transducer: &Transducer) -> String {
    match transducer {
        Transducer::Const(number) => format!("Const_{number}"),
        Transducer::ConstTruth(true) => "Const_T".to_string(),
        Transducer::ConstTruth(false) => "Const_F".to_string(),
        Transducer::ToFlags(_) => "ToFlags".to_string(),
        Transducer::Usum(_) => "Usum".to_string(),
        Transducer::MapTwoPlus(..) => "MapTwo+".to_string(),
        Transducer::MapTwoAtMost(..) => "MapTwo<=".to_string(),
        Transducer::MapTwoEqual(..) => "MapTwo==".to_string(),
        Transducer::MapOneNot(_) => "MapOneNot".to_string(),
        Transducer::ScanPlus { .. } => "ScanPlus_0".to_string(),
        Transducer::SumPlus { .. } => "SumPlus".to_string(),
        Transducer::Distr { .. } => "Distr".to_string(),
        Transducer::BoolToUnary(_) => "B2u".to_string(),
        Transducer::Pack { .. } => "Pack".to_string(),
        Transducer::UnaryPack { .. } => "UPack".to_string(),
    }
}

fn ids_text(ids: &[StreamId]) -> String {
    ids.iter().map(|id| format!("s{}", id.0)).collect::<Vec<_>>().join(",")
}

fn tree_text(tree: &[StreamId]) -> String {
    let (outermost, inner) = tree.split_last().expect("a tree has its data");
    if inner.is_empty() {
        return format!("s{}", outermost.0);
    }
    format!("({},s{})", tree_text(inner), outermost.0)
}
