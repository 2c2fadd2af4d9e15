"""Both clients beside the proved machine of crates/ee_client."""
