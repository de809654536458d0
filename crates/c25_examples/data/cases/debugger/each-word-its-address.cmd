SECTIONS { high : > 0FFF6h }
