//! LPeg's figures, by bench/plain_grammars.lua, where bench/run found a Lua that has it.

use std::process::Command;

const SCRIPT: &str = concat!(env!("CARGO_MANIFEST_DIR"), "/plain_grammars.lua");

/// Nanoseconds a byte by the grammar's name, or why there are none.
pub fn figures() -> Result<Vec<(String, f64)>, String> {
    let Some(lua) = std::env::var_os("LPEG_LUA") else {
        return Err("LPeg isn't installed: no figures of it".to_string());
    };
    let output = Command::new(lua).arg(SCRIPT).output();
    let output = output.map_err(|error| format!("LPeg: {error}"))?;
    let text = String::from_utf8_lossy(&output.stdout);
    let figure = |line: &str| {
        let (name, time) = line.split_once('\t')?;
        Some((name.to_string(), time.parse().ok()?))
    };
    let figures: Option<Vec<(String, f64)>> = text.lines().map(figure).collect();
    figures
        .filter(|_| output.status.success())
        .ok_or(format!("LPeg: {}", String::from_utf8_lossy(&output.stderr)))
}
