
/// Stands for the registry crate `log`: a warning is dropped.
mod log {
    macro_rules! warn_nothing {
        ($($words:tt)*) => {};
    }
    pub(crate) use warn_nothing as warn;
}

/// `parse_type_info`, whose names come out in Latin-1 (see `encoding`).
pub(crate) fn type_info_of(data: &[u8]) -> Result<Vec<ControlInfo>, FileError> {
    parse_type_info(data, 0)
}

/// `type_info_entry`: the entry at `pos` and the place behind it.
pub(crate) fn type_info_step(data: &[u8], pos: usize) -> Option<(ControlInfo, usize)> {
    type_info_entry(data, pos, 0)
}

/// `nul_terminated`: a name and the place behind it.
pub(crate) fn name_step(data: &[u8], start: usize) -> (&[u8], usize) {
    nul_terminated(data, start)
}

/// `parse_entry`: the property at `pos` and the place behind it, as far as it ends by `end`.
pub(crate) fn property_step(data: &[u8], pos: usize, end: usize) -> Option<(BlobProperty, usize)> {
    parse_entry(data, pos, end).map(|(property, next, _)| (property, next))
}

/// Whether `parse_blob` takes the stream as a tree; otherwise it scans it.
pub(crate) fn reads_as_tree(data: &[u8]) -> bool {
    let (_, pos, end) = parse_group(data, 14, data.len());
    end.and_then(|end| controls_of_tree(data, pos, end)).is_some()
}

/// The level of each reported node and the number of the node that holds it, by `parse_nodes`' tree and the choice of `controls_of_tree`.
pub(crate) fn nesting(data: &[u8]) -> Option<Vec<(u32, Option<u32>)>> {
    let (_, mut pos, end) = parse_group(data, 14, data.len());
    let nodes = parse_nodes(data, &mut pos, end?, 0)?;
    let mut all = Vec::new();
    for top in nodes.iter().filter(|n| SECTIONS.contains(&n.type_code) || !n.children.is_empty()) {
        push_nested(top, 0, None, &mut all);
    }
    Some(all)
}

fn push_nested(node: &BlobNode, level: u32, parent: Option<u32>, all: &mut Vec<(u32, Option<u32>)>) {
    let own = all.len() as u32;
    all.push((level, parent));
    for child in &node.children {
        push_nested(child, level + 1, Some(own), all);
    }
}

/// `name_in_blob`: the name in the properties, `None` where the control is numbered.
pub(crate) fn stored_name(props: &[BlobProperty]) -> Option<String> {
    name_in_blob(props)
}

/// `merge_controls`: the type of each control of a Blob, by the controls of TypeInfo.
pub(crate) fn merged_types(groups: Vec<BlobControl>, infos: &[ControlInfo]) -> Vec<u16> {
    merge_controls(groups, infos).iter().map(|control| control.type_code).collect()
}

/// The four name tables: text, number, bytes, control types.
pub(crate) fn name_tables() -> [&'static [(u16, &'static str)]; 4] {
    [TEXT_NAMES, NUMBER_NAMES, BYTES_NAMES, CONTROL_TYPE_NAMES]
}

/// What `parse_blob` gives: the object's properties, and each control's type and properties.
pub type Parsed = Result<(Vec<BlobProperty>, Vec<BlobControl>), FileError>;

/// `parse_blob`.
pub(crate) fn blob_of(data: &[u8]) -> Parsed {
    parse_blob(data)
}
