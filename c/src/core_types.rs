//! The calls that add core types, and that declare the imports and exports of core modules.

use crate::arguments::{Entity, Pair, Subtype, collected, counted, known, unnamed};
use crate::session::Session;
use crate::{CallError, Result, Status, calls, numbers};
use alloc::vec::Vec;
use wenc::tree::{
    CoreArrayType, CoreCompositeType, CoreFuncType, CoreStructType, CoreSubType, GroupTree,
};
use wenc::{FieldType, ValType};

calls! {
    wenc_core_type_function(
        debug_name: name, params[params_len]: Pair => unnamed value,
        results[results_len]: Pair => unnamed value
    ) -> index = |session| session.core_type(debug_name, |to| to.try_function(params, results));
    wenc_core_type_struct(debug_name: name, fields[fields_len]: Pair => unnamed field) -> index
        = |session| session.core_type(debug_name, |to| to.try_struct(fields));
    wenc_core_type_array(debug_name: name, ty[element, of] => field) -> index = |session| {
        session.core_type(debug_name, |to| to.try_array(&ty.element_type, ty.mutable))
    };
    wenc_core_type_subtype(debug_name: name, &subtype: Subtype) -> index = |session| {
        let ty = GroupTree::Sub(subtype.read()?);
        session.core_type(debug_name, |to| to.try_tree(&ty))
    };
    wenc_core_type_group(debug_name: name, subtypes[subtypes_len]: Subtype) -> index = |session| {
        let mut types = Vec::new();
        types.try_reserve_exact(subtypes.len())?;
        for (member, subtype) in subtypes.iter().enumerate() {
            let wrong = |error: CallError| error.of(c"subtypes").at(member);
            types.push(subtype.read().map_err(wrong)?);
        }
        let ty = GroupTree::Rec(types);
        session.core_type(debug_name, |to| to.try_tree(&ty))
    };
    wenc_core_type_import(module[module_len]: text, name[name_len]: text, &entity: Entity)
        = |session| match session {
        Session::ModuleType(to) => Ok(to.try_import(module, name, entity.read()?).map(drop)?),
        _ => Err(session.wrong_handle()),
    };
    wenc_core_type_export(name[name_len]: text, &entity: Entity) = |session| match session {
        Session::ModuleType(to) => Ok(to.try_export(name, entity.read()?).map(drop)?),
        _ => Err(session.wrong_handle()),
    };
}

fn value(number: u32, index: u32) -> Option<ValType> {
    Some(numbers::core_value(number, index)?.into())
}

fn field(number: u32, index: u32) -> Option<FieldType> {
    Some(numbers::field(number, index)?.into())
}

impl Subtype {
    /// Returns the type, with copies of its lists.
    unsafe fn read(&self) -> Result<CoreSubType> {
        Ok(CoreSubType {
            is_final: self.is_final.is_set(),
            supertype_idx: self.has_supertype.is_set().then_some(self.supertype),
            composite_type: unsafe { self.composite() }
                .map_err(|error| error.of(c"subtype").at(0))?,
        })
    }

    unsafe fn composite(&self) -> Result<CoreCompositeType> {
        let fields = unsafe { counted(c"subtype", self.fields, self.fields_len) }?;
        Ok(match self.kind {
            1 => {
                let results = unsafe { counted(c"subtype", self.results, self.results_len) }?;
                CoreCompositeType::Func(CoreFuncType::from_lists(
                    collected(unnamed(c"fields", fields, numbers::core_value)?)?,
                    collected(unnamed(c"results", results, numbers::core_value)?)?,
                ))
            }
            2 => {
                let fields = collected(unnamed(c"fields", fields, numbers::field)?)?;
                CoreCompositeType::Struct(CoreStructType { fields })
            }
            3 => match fields {
                [of] => CoreCompositeType::Array(CoreArrayType(known(
                    c"fields",
                    numbers::field(of.kind, of.number),
                )?)),
                _ => return Err(Status::BadArgument.into()),
            },
            _ => return Err(Status::BadArgument.into()),
        })
    }
}
